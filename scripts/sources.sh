# For the scripts that source it, at the top of the repository: what a crate is made of, and what
# the archives of prebuilt/ are made of.
targets=(x86_64 aarch64)
version=$(sed -n 's/^#define G1_VERSION "\(.*\)"$/\1/p' include/g1.h)

# What of a version the name of the shared library has: before 1.0.0 any minor one is another
# interface.
interface_of() {
  local minor=${1#*.}
  case $1 in
    0.*) echo "0.${minor%%.*}" ;;
    *) echo "${1%%.*}" ;;
  esac
}

# The libraries that crates.txt names for a crate: those of the repository (`ours`), or those of the
# kit.
stands_on() {
  local library from
  for library in $(sed -n "s/^$2\( [^:]*\)\{0,1\}: *//p" crates.txt); do
    from=kit
    [ ! -d "crates/$library" ] || from=ours
    [ "$from" != "$1" ] || echo "$library"
  done
}

# The crates of the repository below one, lowest first, as crates.txt lists them.
below() {
  tac crates.txt | awk -F ': *' -v above="$1" '
    { sub(/ .*/, "", $1) }
    $1 == above || $1 in wanted {
      if ($1 != above) print $1
      count = split($2, libraries, " ")
      for (i = 1; i <= count; i++) wanted[libraries[i]]
    }' | tac
}

# The parts of a crate that decide what is built of it. (Its proofs leave nothing in that.)
parts=(c src specs)

# folders_of CRATE PART..: the folders with these parts of a crate and of those below it.
folders_of() {
  local crate part
  for crate in $(below "$1") "$1"; do
    for part in "${@:2}"; do
      [ ! -d "crates/$crate/$part" ] || echo "crates/$crate/$part"
    done
  done
}

# sums_of CRATE FOLDER..: what decides what is built of a crate, in lines `SUM  NAME`: by themselves
# the version and the toolchain's logic, which docs/guarantees.md names, the crates' lines of
# crates.txt, and each file of these folders.
sums_of() {
  local logic crates
  logic=$(grep -om 1 'logic [0-9a-f]\{16\}' docs/guarantees.md)
  crates=$(below "$1" | tr '\n' '|')$1
  printf '%s  %s\n' "$version" G1_VERSION "${logic#logic }" logic
  grep -E "^($crates)[ :]" crates.txt | sha256sum | sed 's/-$/crates.txt/'
  find "${@:2}" -type f ! -path prebuilt/sums | LC_ALL=C sort | xargs sha256sum
}

# What decides the archives of prebuilt/, and they themselves.
sums_of_prebuilt() {
  local folders
  mapfile -t folders < <(folders_of g1_c "${parts[@]}")
  sums_of g1_c "${folders[@]}" prebuilt
}

# Why the archives of prebuilt/ are not of the sources here; nothing if they are.
why_not_prebuilt() {
  if [ -e prebuilt/sums ]; then
    diff prebuilt/sums <(sums_of_prebuilt) |
      sed -n '/^[<>]/{s/.*  \(.*\)/\1 is not as in prebuilt\/sums/p;q}' || true
  else
    echo "there is no prebuilt/sums"
  fi
}

# Builds the library for C for each target, one after the other: what the first proves, the next
# takes.
build_libraries() {
  local target
  for target in "${targets[@]}"; do
    scripts/built --target "$target" g1_c > /dev/null || return 1
  done
}
