# Which library for C a script builds on. The script names itself in $me, the repository in $top, and a temporary folder in $work.
is_proved() {
  [ -e "$1" ] && [ -z "$(find "$top"/crates.txt "$top"/crates/*/src "$top"/crates/*/specs "$top"/crates/*/proofs -newer "$1" -print -quit)" ]
}

# Chooses the library, and says which. The path goes to the variable library.
choose_library() {
  library=$top/crates/ratio_c/out/libratio_c.a
  if [ -n "${LIBRATIO:-}" ]; then
    library=$(realpath -e "$LIBRATIO") || stop "LIBRATIO names no file"
    echo "$me: over the library that LIBRATIO names, $library"
  elif is_proved "$library"; then
    echo "$me: over the proved library, crates/ratio_c/out/libratio_c.a"
  else
    command -v cargo >/dev/null || stop "cargo is missing: apt-get install cargo"
    tar -C "$top" --exclude=target -cf - rust | tar -C "$work" -xf -
    # cargo writes into its own folder, too. Its settings, such as a mirror of crates.io, come along.
    mkdir "$work/cargo"
    cp "${CARGO_HOME:-${HOME:-}/.cargo}"/config{,.toml} "$work/cargo/" 2>/dev/null || true
    CARGO_HOME=$work/cargo "$work/rust/c/build" || stop "cargo built no library"
    library=$work/rust/c/target/release/libratio_c.a
    echo "$me: over the library that cargo built of rust/c, which is not proved on this machine"
  fi
}
