# From what dist/ was made: functions for ./ddcap, ./test, the scripts of this folder and their tests, which set `top` to the folder of the
# repository. A machine is called as in the names of dist/: x86_64, aarch64, armv7 and so on. Its assembly is packed by gzip, which is a seventh of
# it. dist/ORIGIN has lines of a name and what it is: `program` and `toolchain`, the checksum of the `sources`, that of each file of assembly, of the
# WebAssembly module in web/ddcap.html, and of the LLVM `module` that they were compiled from.

# The program's crate and those that it stands on, lowest first, as crates.txt lists them.
needed() {
  awk -F ': *' '/^#/ { next } { order[++count] = $1; uses[$1] = $2 }
    END {
      need["ddcap"]
      for (i = count; i > 0; i--)
        if (order[i] in need) {
          split(uses[order[i]], names, " ")
          for (k in names) need[names[k]]
        }
      for (i = 1; i <= count; i++) if (order[i] in need) print order[i]
    }' "$top/crates.txt"
}

# The libraries that a crate uses, as crates.txt lists them.
used_by() { sed -n "s/^$1: *//p" "$top/crates.txt"; }

sum_of_sources() {
  (cd "$top" && { echo crates.txt; find $(needed | sed 's|.*|crates/&/src|') -name '*.rt' | LC_ALL=C sort; } |
    tr '\n' '\0' | xargs -0 sha256sum | checksum)
}

checksum() { sha256sum | cut -d ' ' -f 1; }

origin_of() { sed -n "s/^$1 //p" "$top/dist/ORIGIN" 2> /dev/null; }

# Why dist/ is not what these sources give; nothing where it is.
misfit() {
  local name sum
  [ -f "$top/dist/ORIGIN" ] || { echo 'there is no dist/ORIGIN'; return; }
  [ "$(origin_of sources)" = "$(sum_of_sources)" ] || { echo 'a source is not the one that dist/ was made from'; return; }
  command -v gzip > /dev/null || { echo 'gzip is wanted, and is not on the path'; return; }
  while read -r name sum; do
    [ "$(unpacked "$top/dist/$name" 2> /dev/null | checksum)" = "$sum" ] ||
      { echo "$(cd "$top" && packed "dist/$name") is not the file that dist/ORIGIN names"; return; }
  done < <(grep '^ddcap-.*\.s ' "$top/dist/ORIGIN")
  name=$(machine_of ${CC:-cc})
  has_assembly "$name" || echo "dist/ has no program for this machine, $name"
}

# The machine that a compiler makes programs for; where there is no compiler, this machine: [COMPILER..]
machine_of() {
  local named
  named=$("$@" -dumpmachine 2> /dev/null) || named=$(uname -m)
  case $named in
    arm*) if [ "$(uname -m)" = armv6l ]; then echo armv6; else echo armv7; fi ;;
    i?86*) echo i686 ;;
    *mingw*) echo windows ;;
    *) echo "${named%%-*}" ;;
  esac
}

has_assembly() { [ -f "$(packed "$top/dist/ddcap-$1.s")" ]; }

# Why the assembly for a machine can't be used, with what to do; nothing where it can: MACHINE
unusable() {
  local file
  has_assembly "$1" || { echo "dist/ has no assembly for $1; web/ddcap.html works in a browser on any machine"; return; }
  file=$(cd "$top" && packed "dist/ddcap-$1.s")
  [ "$(unpacked "$top/dist/ddcap-$1.s" 2> /dev/null | checksum)" = "$(origin_of "ddcap-$1.s")" ] ||
    echo "$file is not the file that dist/ORIGIN names; get it anew, as by 'git checkout dist'"
}

# The name of a file that may be packed, and what it holds.
packed() { if [ -f "$1.gz" ]; then echo "$1.gz"; else echo "$1"; fi; }
unpacked() { if [ -f "$1.gz" ]; then gzip -dc "$1.gz"; else cat "$1"; fi; }

# Assembly without the lines that GNU's assembler doesn't know, which make no code.
known_to_gnu() { grep -vE '^[[:space:]]*\.(addrsig|attribute[[:space:]])'; }

# The assembly for a machine.
assembly() { unpacked "$top/dist/ddcap-$1.s" | known_to_gnu; }

# The path of objcopy or ar that goes with a compiler: NAME COMPILER..
tool_of() { "${@:2}" -print-prog-name="$1"; }

# Makes an object of the assembly that comes on standard input, in which what the program calls of a system has the names of dist/names: OBJECT
# [COMPILER..]
outer_object() {
  local object=$1
  shift
  "$@" -c -x assembler - -o "$object" && "$(tool_of objcopy "$@")" --redefine-syms="$top/dist/names" "$object"
}

# Makes a program of the assembly that comes on standard input: PROGRAM [COMPILER..]
link_assembly() {
  local program=$1 status
  shift
  outer_object "$program.o" "$@" && "$@" -O2 -o "$program" "$program.o" "$top"/dist/{system,memory}.c -Wl,--gc-sections
  status=$?
  rm -f "$program.o"
  return "$status"
}

# Makes a program of dist/ for a machine: MACHINE PROGRAM [COMPILER..]
link_program() { (set -o pipefail; assembly "$1" | link_assembly "${@:2}"); }

# Makes a library of dist/ for a machine, by which tools/tests/called.py calls the program: MACHINE LIBRARY [COMPILER..]
link_called() {
  local library=$2 status
  (set -o pipefail; assembly "$1" | outer_object "$library.o" "${@:3}") &&
    "${@:3}" -O2 -shared -fPIC -fvisibility=hidden -o "$library" "$library.o" "$top"/{lib/texts,dist/memory,tools/tests/called}.c -Wl,--gc-sections
  status=$?
  rm -f "$library.o"
  return "$status"
}

# Whether the assembly for a machine was made of a module before; that assembly, which is made where it was not: MACHINE MODULE
has_made() { [ -f "$top/out/$1.s" ] && [ "$(cat "$top/out/$1.of" 2> /dev/null)" = "$(sum_of_making "$2")" ]; }
of_module() {
  has_made "$1" "$2" ||
    { "$top/tools/build/for_machine" "$2" "$1" "$top/out/$1.s" && sum_of_making "$2" > "$top/out/$1.of"; } >&2 || return
  known_to_gnu < "$top/out/$1.s"
}
sum_of_making() { cat "$1" "$top"/tools/build/{for_machine,retarget} "$top/dist/names" | checksum; }

# An LLVM module as text; one that is text already stays: MODULE TEXT
as_text() {
  case $1 in
    *.ll) ln -sf "$1" "$2" ;;
    *) "$(kit)/toolchain/bin/clang" -S -emit-llvm -O0 -Xclang -disable-llvm-passes -Wno-override-module -x ir "$1" -o "$2" ;;
  esac
}

# The folder of the toolchain that is on the path.
kit() { dirname "$(rt doc)"; }

# Assembles as the toolchain does: MACHINE ASSEMBLY OBJECT. What fills up between functions depends on the processor that is named.
assemble() {
  local -A processor=([x86_64]=x86-64-v2 [aarch64]=armv8-a)
  "$(kit)/toolchain/bin/clang" --target="$1-unknown-linux-gnu" -march="${processor[$1]}" -c -x assembler "$2" -o "$3"
}

# Where the word is an option and names no folder: prints the heading of the script, and ends with status 0 after --help or -h, else 2. SCRIPT WORD
tell_usage() {
  case $2 in
    --help | -h) awk 'NR > 1 && !/^#/ { exit } NR > 1 { sub(/^# /, ""); print }' "$1"; exit 0 ;;
    -*) echo "${1##*/}: $2 is no folder; ${1##*/} --help tells how it is used" >&2; exit 2 ;;
  esac
}
