# Which definitions of specs/ are cited by which. Read by `.ci/reading`: first the names of all files of specs/, one a
# line, then these files, then those of src/. It prints what `show` asks for: `counts`, `files`, `without` or `unreached`.
#
# A definition is known by its file and its name; a line that begins a value, `record {`, begins none. What it cites are the words of its text that its file defines or takes
# from another file; so a variable that is called like a definition counts as one. A constructor stands for its data. The
# types of src/, which specs name by `declared`, are counted apart.

function crate_of(path, part) { split(path, part, "/"); return part[2] }
function indent_of(text) { match(text, /^ */); return RLENGTH }
# operators, as words that can be cited
function op(text) { gsub(/>>=/, " op_bind ", text); gsub(/◌/, "", text); return text }
function trim(text) { gsub(/^ +| +$/, "", text); return text }

# the file that a path of a crate's specs leads to, and in `inner` what of it: a data, or nothing
function file_at(crate, parts, count, i, path) {
  for (i = count; i > 0; i--) {
    path = parts[1]
    for (j = 2; j <= i; j++) path = path "/" parts[j]
    path = "crates/" crate "/specs/" path ".antt"
    if (path in is_file) { inner = i < count ? parts[i + 1] : ""; return path }
  }
  return ""
}

# one line `use Rattle.CRATE.specs.A.B.{a, b as c}`, or `.. as d`
function take(line, path, names, list, count, i, words, parts, n, crate, declared, file, type, target) {
  sub(/^.*use Rattle\./, "", line)
  sub(/;? *$/, "", line)
  if (match(line, /\.\{.*\}/)) { names = op(substr(line, RSTART + 2, RLENGTH - 3)); path = substr(line, 1, RSTART - 1) }
  else if (match(line, / as /)) { names = ""; path = substr(line, 1, RSTART - 1); target = trim(substr(line, RSTART + 4)) }
  else { path = line; names = ""; n = split(path, parts, "."); target = parts[n] }
  n = split(path, parts, ".")
  crate = parts[1]
  if (parts[2] != "specs") return
  for (i = 3; i <= n; i++) parts[i - 2] = parts[i]
  n -= 2
  if (parts[1] == "declared") {
    type = parts[n] ~ /^The(Variants|Constants)$/ ? parts[n - 1] : parts[n]
    file = "crates/" crate "/src " type
    if (!(("crates/" crate) in is_crate)) return
    if (names == "") { rename[FILENAME, target] = file; declared_as[file] = 1; return }
    count = split(names, list, ",")
    for (i = 1; i <= count; i++) {
      split(trim(list[i]), words, " as ")
      cites_as[FILENAME, words[2] == "" ? words[1] : words[2]] = file
      declared_as[file] = 1
    }
    return
  }
  file = file_at(crate, parts, n)
  if (file == "") return
  if (names == "") {
    if (inner != "") cites_as[FILENAME, target] = file SUBSEP inner
    alias[FILENAME, target] = file SUBSEP inner
    return
  }
  count = split(names, list, ",")
  for (i = 1; i <= count; i++) {
    words[2] = ""
    split(trim(list[i]), words, " as ")
    cites_as[FILENAME, words[2] == "" ? words[1] : words[2]] = file SUBSEP (inner == "" ? words[1] : inner)
  }
}

# begins a definition of this name in the present file
function begin(name, is_public) {
  current = FILENAME SUBSEP name
  defined[current] = 1
  order[++definitions] = current
  file_of[current] = FILENAME
  public[current] = is_public
  within[current] = module_text
  lines[current] = 0
  count_in[FILENAME]++
}

# names of files
FNR == 1 { files_read++ }
FILENAME == list_of_files { is_file[$0] = 1; split($0, p, "/"); is_crate["crates/" p[2]] = 1; next }

FNR == 1 { current = ""; module_text = ""; module_indent = -1; mutual = 0; in_data = 0; clause = 0; is_trait = 0 }

# ---- a file of specs/
FILENAME ~ /\.antt$/ {
  line = $0
  sub(/--.*/, "", line)
  if (line ~ /^ *$/) next
  lines_in[FILENAME]++
  at = indent_of(line)
  if (line ~ /^(pub )?use /) { take(line); current = ""; next }
  if (line ~ /^pub mod /) { current = ""; next }
  if (module_indent >= 0 && at <= module_indent && !in_head) { module_indent = -1; module_text = "" }
  if (line ~ /^ *module /) { current = ""; in_head = 1; module_indent = at; module_text = "" }
  if (in_head) {
    module_text = module_text " " line
    if (line ~ / where *$/) in_head = 0
    next
  }
  if (mutual && at == 0) mutual = 0
  if (line ~ /^ *(abbrev|unfoldable) mutual/) { mutual = 1; current = ""; next }
  text = op(line)
  is_public = text ~ /^ *((abbrev|unfoldable) )?pub /
  if (text ~ /^ *(abbrev|unfoldable) (pub )?[^ ]+ *:?/) {
    word = text
    sub(/^ *(abbrev|unfoldable) +(pub +)?/, "", word)
    sub(/^ +/, "", word)
    sub(/[ :].*/, "", word)
    begin(word, is_public)
    in_data = 0
  } else if (text ~ /^ *(pub )?(record|data) +[A-Za-z_0-9]/ && text !~ /^ *record [^:]*\{ *$/ && text !~ /^ *record [^:]*\{[^:]*=/) {
    word = text
    sub(/^ *(pub )?(record|data) +/, "", word)
    sub(/[ :({].*/, "", word)
    begin(word, is_public)
    in_data = text ~ /data /
  } else if (at == 0 && text ~ /^pub [A-Za-z_0-9]+ +:/) {
    word = substr(text, 5)
    sub(/[ :].*/, "", word)
    begin(word, 1)
    in_data = 0
  } else if (mutual && at == 2 && text ~ /^  (pub )?[A-Za-z_0-9]+ +:/) {
    word = text
    sub(/^ *(pub )?/, "", word)
    sub(/[ :].*/, "", word)
    begin(word, is_public)
    in_data = 0
  } else if (in_data && current != "" && text ~ /^ +[A-Za-z_0-9]+ +:/) {
    word = trim(text)
    sub(/[ :].*/, "", word)
    data_of[FILENAME, word] = current
  }
  if (current != "") { text_of[current] = text_of[current] " " text; lines[current]++ }
  next
}

# ---- a file of src/: the clauses that others can see
FILENAME ~ /\.rt$/ {
  line = $0
  sub(/\/\/.*/, "", line)
  if (line ~ /^ *ghost use /) { take(line); next }
  if (line ~ /^ *(pub )?(unsafe )?trait /) is_trait = line ~ /pub /
  if (line ~ /^ *impl/) is_trait = line ~ / for /
  if (line ~ /^ *(pub(\([a-z]+\))? )?(const )?(unsafe )?fn /)
    is_open = (line ~ /^ *pub (const )?(unsafe )?fn / || (is_trait && line !~ /pub\(/))
  if (line ~ /(ensures|requires|invariant|ghost)/) {
    clause = 1
    if (line ~ /ghost/ && line !~ /(ensures|requires)/) is_open = 1
  }
  if (clause) {
    if (is_open) shown[FILENAME] = shown[FILENAME] " " op(line)
    all_clauses[FILENAME] = all_clauses[FILENAME] " " op(line)
  }
  if (line ~ /^ *\{ *$/ || line ~ /^ *(let|match|if|return) /) clause = 0
}

# what a text of a file cites: in `cited` the definitions, in `cited_types` the types of src/
function look(file, text, words, count, i, word, first, rest, target) {
  split("", cited)
  split("", cited_types)
  gsub(/[^A-Za-z0-9_.]+/, " ", text)
  count = split(text, words, " ")
  for (i = 1; i <= count; i++) {
    word = words[i]
    sub(/^\.+/, "", word)
    first = word
    rest = ""
    if (match(word, /\./)) { first = substr(word, 1, RSTART - 1); rest = substr(word, RSTART + 1); sub(/\..*/, "", rest) }
    if (first == "") continue
    if ((file, first) in alias) {
      split(alias[file, first], at_file, SUBSEP)
      note(at_file[1] SUBSEP (at_file[2] == "" ? rest : at_file[2]))
      continue
    }
    if ((file, first) in rename) { cited_types[rename[file, first]] = 1; continue }
    if ((file, first) in cites_as) {
      target = cites_as[file, first]
      if (target in declared_as) cited_types[target] = 1
      else note(target)
      continue
    }
    if (first == word || rest != "") note(file SUBSEP first)
  }
}
function note(target) {
  if (target in defined) cited[target] = 1
  else if (target in data_of) cited[data_of[target]] = 1
}

# all that is reached from the definitions in `start`, without those of the crates in `left_out`
function reach(queue, tail, head, this, next_one) {
  split("", reached)
  split("", types)
  head = 1
  tail = 0
  for (this in start) { queue[++tail] = this; reached[this] = 1 }
  if (sorted_start != "") { split("", queue); tail = split(sorted_start, queue, "\n"); for (i = 1; i <= tail; i++) reached[queue[i]] = 1 }
  while (head <= tail) {
    this = queue[head++]
    look(file_of[this], within[this] " " text_of[this])
    for (next_one in cited_types) types[next_one] = 1
    # in the order of the files, so that every machine takes them alike
    for (i = 1; i <= definitions; i++) {
      next_one = order[i]
      if (!(next_one in cited) || next_one in reached) continue
      if (crate_of(file_of[next_one]) in left_out) continue
      reached[next_one] = 1
      queue[++tail] = next_one
      if (!(file_of[next_one] in rank)) rank[file_of[next_one]] = ++ranks
    }
  }
  total = tail
}

function name_of(id, part) { split(id, part, SUBSEP); return part[2] }
function size(list, n, it) { n = 0; for (it in list) n++; return n }
function add_up(sum_lines, it, seen_files) {
  sum_lines = 0
  split("", seen_files)
  for (it in reached) { sum_lines += lines[it]; seen_files[file_of[it]] = 1 }
  reached_lines = sum_lines
  reached_files = size(seen_files)
}

END {
  top = "crates/replica_cli/specs/Run.antt" SUBSEP "Runs"
  if (show == "unreached") {
    for (file in shown) {
      look(file, shown[file])
      for (it in cited) start[it] = 1
    }
    sorted_start = ""
    reach()
    for (i = 1; i <= definitions; i++) {
      it = order[i]
      publics += public[it]
      if (public[it] && !(it in reached)) print file_of[it], name_of(it)
    }
    printf "definitions: %d, public: %d, reached from a clause that others can see: %d\n", definitions, publics, size(reached)
    exit
  }
  if (!(top in defined)) { print "there is no Runs"; exit }
  start[top] = 1
  sorted_start = top
  rank[file_of[top]] = ++ranks
  if (show == "without") {
    reach(); add_up()
    printf "%d %d\n", total, reached_lines
    n = split(groups, group, ";")
    for (g = 1; g <= n; g++) {
      split("", left_out)
      c = split(group[g], names, ",")
      for (i = 1; i <= c; i++) left_out[names[i]] = 1
      reach(); add_up()
      printf "%s %d %d\n", group[g], total, reached_lines
    }
    exit
  }
  reach(); add_up()
  if (show == "counts") {
    printf "%d %d %d %d %d %d\n", total, definitions, reached_lines, reached_files, size(count_in), size(types)
    exit
  }
  for (it in reached) { needed[file_of[it]]++; needed_lines[file_of[it]] += lines[it] }
  for (file in rank) by_rank[rank[file]] = file
  for (i = 1; i <= ranks; i++) {
    file = by_rank[i]
    printf "%s %d %d %d %d\n", file, needed[file], count_in[file], needed_lines[file], lines_in[file]
  }
}
