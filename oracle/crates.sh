# Functions that build the listed files and the oracle over them. Sourced by build.sh, bench/run.sh
# and tests/oracle.sh, with the repository's top as the working folder.

# The folder of embedded-graphics 0.8.2, which has the listed files under the paths of hashes.sha256,
# or under the flat names of a documents folder (src--src--text--text.rs.txt).
folder=${EMBEDDED_GRAPHICS:-../shared/docs/src}

# listed_file PATH: where a listed file stands in the folder; nothing if it is not there.
listed_file() {
  local name
  for name in "$folder/src--${1//\//--}.txt" "$folder/$1"; do
    if [ -f "$name" ]; then
      echo "$name"
      return
    fi
  done
}

# missing_file: the first listed file that is not in the folder; nothing if all are.
missing_file() {
  local hash path
  while read -r hash path; do
    if [ -z "$(listed_file "$path")" ]; then
      echo "$path"
      return
    fi
  done < oracle/hashes.sha256
}

# check_and_copy OUT: copies each listed file into OUT/src under its path, beside the stand-ins of the
# modules that are not listed, and checks its hash.
check_and_copy() {
  local out=$1 hash path
  path=$(missing_file)
  if [ -n "$path" ]; then
    echo "oracle: $path is not in $folder; EMBEDDED_GRAPHICS names the folder of the crate's files" >&2
    return 1
  fi
  rm -rf "$out/src"
  mkdir -p "$out/src"
  cp -r oracle/src/stand_ins/crate/. "$out/src/"
  while read -r hash path; do
    mkdir -p "$out/$(dirname "$path")"
    cp "$(listed_file "$path")" "$out/$path"
  done < oracle/hashes.sha256
  (cd "$out" && sha256sum --check --quiet) < oracle/hashes.sha256
}

# build_library OUT FLAGS..: compiles the stand-in crates, the listed files and the oracle into OUT.
# Lints are capped for the listed files only, which stay as they were published.
build_library() {
  local out=$1
  shift
  local rlib=(rustc --edition 2021 --crate-type rlib --out-dir "$out" -L "$out" "$@")
  "${rlib[@]}" --crate-name az oracle/src/stand_ins/az.rs
  "${rlib[@]}" --crate-name byteorder oracle/src/stand_ins/byteorder.rs
  "${rlib[@]}" --crate-name embedded_graphics_core oracle/src/stand_ins/core/lib.rs
  "${rlib[@]}" --crate-name embedded_graphics --cap-lints allow --extern az --extern byteorder \
    --extern embedded_graphics_core "$out/src/lib.rs"
  "${rlib[@]}" --crate-name oracle --extern embedded_graphics oracle/src/lib.rs
}

# station_link: the words with which a program links the exported calls, nothing without them.
station_link() {
  if [ -f target/staticlib/libstation.a ]; then
    echo "--cfg library -L native=target/staticlib -l static=station"
  fi
}

# build_program OUT NAME FILE FLAGS..: compiles a program over the oracle.
build_program() {
  local out=$1 name=$2 file=$3
  shift 3
  # shellcheck disable=SC2046
  rustc --edition 2021 --check-cfg 'cfg(library)' --crate-name "$name" -L "$out" --extern oracle \
    --extern embedded_graphics $(station_link) -o "$out/$name" "$@" "$file"
}
