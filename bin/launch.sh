# What each program of this folder does, with $here, this folder, and $name, the program's: runs the proved program at once
# where no source is newer than its last proof. Else launch.py looks closer, and proves and builds it where that is needed.
top=$(dirname -- "$here")
out=$top/crates/$name/out
if [ "${1-}" != --unproved ] && [ -x "$out/$name" ] && [ -f "$out/proved_from" ]; then
    newer=$(cd "$top" && find "$out/$name" crates.txt crates/*/src crates/*/specs crates/*/proofs -newer "$out/proved_from" -print -quit 2>/dev/null)
    [ -n "$newer" ] || exec "$out/$name" "$@"
fi
exec python3 "$here/launch.py" "$name" "$@"
