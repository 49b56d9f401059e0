# Tiles of several bands that the program wrote, read by Esri's own library.

if ! command -v python3 >/dev/null; then
    echo "skipped: python3, which calls Esri's library, is not here"
else
    python3 "$here/tests/liblerc.py" "$program" >told 2>err || cat err >&2
    cat told
    passed=$((passed + $(grep -c '^ok: ' told)))
    failed=$((failed + $(grep -c '^FAILED: ' told)))
    if [ ! -s told ]; then count "Esri's library: tiles of several bands" no; fi
fi
