# A bundle or a journal whose name is a link: to a file that is not there now, as one on a disk that is away, and to a
# file behind many links.

# Whether no file `$1` is there, nor a link of that name.
is_gone() { [ ! -e "$1" ] && [ ! -L "$1" ]; }

# What each command answers while the link `$2` leads to no file.
refuses_link() {
    for words in list check recover 'get 127 127' 'get 127 127 raw'; do
        # shellcheck disable=SC2086
        expect "$words: $1" 5 nothing "$no_volume" plainly far_store $words
        tells_behind "$words: $1, which is told" "in $2: it is a link that leads to no file"
    done
    for words in put build; do
        expect "$words: $1" 5 nothing "$no_volume" plainly far_store "$words" 3 0 1 <one_tile
    done
}

# ---- A bundle on a disk that is away

mkdir shelf_here
cp bundle_2 shelf_here/disk
ln -s shelf_here/disk far_store
mv shelf_here shelf_away
refuses_link 'the disk of the bundle is away' far_store
if is_gone far_store.jnl && is_gone shelf_here; then holds=yes; else holds=no; fi
count 'the disk of the bundle is away: nothing is made' "$holds"
mv shelf_away shelf_here
expect 'list: the disk of the bundle is there again' 0 list_2 '' plainly far_store list
if cmp -s shelf_here/disk bundle_2; then holds=yes; else holds=no; fi
count 'the disk of the bundle is there again: it is as it was' "$holds"
# The folder is there, and the file is not.
rm -f shelf_here/disk far_store.jnl
refuses_link 'the link leads to no file' far_store
if is_gone far_store.jnl && is_gone shelf_here/disk; then holds=yes; else holds=no; fi
count 'the link leads to no file: nothing is made' "$holds"
rm -rf shelf_here far_store far_store.jnl

# ---- A journal on such a disk

cp bundle_2 far_store
ln -s shelf_here/jnl far_store.jnl
refuses_link 'the disk of the journal is away' far_store.jnl
if cmp -s far_store bundle_2 && is_gone shelf_here; then holds=yes; else holds=no; fi
count 'the disk of the journal is away: the bundle is as it was' "$holds"
rm -f far_store far_store.jnl

# ---- A disk that is mounted

if unshare -m true 2>/dev/null; then
    mkdir mounted shelf_there
    cp bundle_2 shelf_there/disk
    ln -s mounted/disk far_store
    # Runs the program while the disk is mounted; nobody else sees that.
    while_mounted() { unshare -m sh -c 'mount --bind shelf_there mounted && exec "$@"' sh "$program" "$@" >out 2>err; }
    refuses_link 'a disk that is not mounted' far_store
    expect 'list: the disk is mounted' 0 list_2 '' while_mounted far_store list
    expect 'put: the disk is mounted' 0 put_1 '' while_mounted far_store put 3 0 1 <one_tile
    if cmp -s far_store.jnl journal_3; then holds=yes; else holds=no; fi
    count 'put: the disk is mounted: the journal is closed' "$holds"
    refuses_link 'a disk that is not mounted again' far_store
    if [ -z "$(ls mounted)" ]; then holds=yes; else holds=no; fi
    count 'a disk that is not mounted: nothing is made in its place' "$holds"
    rm -rf mounted shelf_there far_store far_store.jnl
else
    echo 'skipped: a disk that is not mounted, since nothing may be mounted here'
fi

# ---- Many links

cp bundle_2 chain_0
link=1
while [ "$link" -le 41 ]; do
    ln -s "chain_$((link - 1))" "chain_$link"
    link=$((link + 1))
done
expect 'list: behind forty links' 0 list_2 '' plainly chain_40 list
expect 'list: behind more links than the machine follows' 5 nothing "$no_volume" plainly chain_41 list
rm -f chain_*
