# Whether a program is built of its sources as they stand now: for scripts that have set `root`, `target` and `newline`, with `set -fu`.
# The programs are bench, verdict, listing, assembler and exec_table; `batch` is the tool of that name.

# Called as $(look PATHS), a path to a line: what shows that a file or folder changed. A file put in another's place has another inode and
# another ctime, even where its mtime is old.
look() {
  IFS=$newline
  cd "$root/" && exec stat -c '%i %s %.9Z' -- $1 2>/dev/null
}

# A program's stamp is written after its build: `paths` are the files and folders that the program is made of, and itself; `seen` is how they
# looked. A stamp that is broken ends the subshell alone.
is_built() (
  stamp=$target/$1-stamp
  [ -r "$stamp" ] && . "$stamp" && now=$(look "$paths") && [ "$now" = "$seen" ]
) 2>/dev/null

# keep_stamp NAME PROGRAM SOURCES LOOKED: the path of what was built, the paths that it was made of, and how these looked before that.
keep_stamp() {
  {
    printf 'paths=%s\n' "$(quote "$3$newline$2")" && printf "seen='%s\n%s'\n" "$4" "$(look "$2")"
  } 2>/dev/null >"$target/$1-stamp.$$" && mv "$target/$1-stamp.$$" "$target/$1-stamp" 2>/dev/null
}

# The crates of a program, itself last and each behind those that it stands on; the kit's libraries are not listed in crates.txt.
list_crates() {
  awk -F: -v program="$1" '
    function visit(crate,    i, count, names) {
      if (!(crate in needs) || crate in visited) return
      visited[crate]
      count = split(needs[crate], names, " ")
      for (i = 1; i <= count; i++) visit(names[i])
      print crate
    }
    { sub(/#.*/, "") }
    NF > 1 { needs[$1] = $2 }
    END { visit(program) }' "$root/crates.txt" 2>/dev/null
}

# Their files and folders. In out/ stands what rt makes; a folder out/ that is made later would change its crate's, so it is made here.
list_paths() (
  cd "$root/" || exit
  for crate in $1; do
    [ -d "crates/$crate/out" ] || mkdir "crates/$crate/out"
  done 2>/dev/null
  exec find crates.txt $(printf 'crates/%s ' $1) '(' -name must-fail -o -path 'crates/*/out' ! -path 'crates/*/*/out' ')' -prune -o -print 2>/dev/null
)

quote() {
  printf '%s\n' "$1" | sed "s/'/'\\\\''/g; 1s/^/'/; \$s/\$/'/"
}
