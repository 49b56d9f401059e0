# Bundles that may only be read, a disk that is full, files longer than 4 GiB, and which names are synced.

# ---- A bundle that may only be read

# The store `disk`, in a folder of its own, as another user than root has it who may only read it. Its program is
# the one that bin/lerc_cli has built, since that user builds none.
shared=$room/shared
mkdir "$shared"
chmod 755 "$room" "$shared"
"$program" >out 2>err
built=$(built_of lerc_main)
cp "$built" "$shared/program"
chmod 755 "$shared/program"

as_reader() {
    (cd "$shared" && exec setpriv --reuid 65534 --regid 65534 --clear-groups ./program "$@") >out 2>err
}
as_itself() { (cd "$shared" && exec ./program "$@") >out 2>err; }

# Lets this bundle and this journal be read, and nobody write them or their folder.
may_be_read() {
    chmod 755 "$shared"
    rm -f "$shared/disk" "$shared/disk.jnl"
    [ "$1" = none ] || { cp "$1" "$shared/disk"; chmod 444 "$shared/disk"; }
    [ "$2" = none ] || { cp "$2" "$shared/disk.jnl"; chmod 444 "$shared/disk.jnl"; }
    chmod 555 "$shared"
}

# That both files are as they were.
still_has() {
    if is_like "$shared/disk" "$2" && is_like "$shared/disk.jnl" "$3"; then holds=yes; else holds=no; fi
    count "$1" "$holds"
}

if [ "$(id -u)" -ne 0 ]; then
    reader=as_itself
elif command -v setpriv >/dev/null; then
    reader=as_reader
else
    reader=
    echo 'skipped: a bundle that may only be read, since root may write it and there is no setpriv'
fi
if [ -n "$reader" ]; then
    for journal in none journal_2; do
        may_be_read bundle_2 "$journal"
        expect "list: may only be read, $journal" 0 list_2 '' "$reader" disk list
        expect "check: may only be read, $journal" 0 check_2 '' "$reader" disk check
        expect "get: may only be read, $journal" 0 steps_grid '' "$reader" disk get 127 127
        expect "get raw: may only be read, $journal" 0 steps '' "$reader" disk get 127 127 raw
        expect "recover: may only be read, $journal" 0 closed '' "$reader" disk recover
        expect "put: may only be read, $journal" 5 nothing "$no_volume" "$reader" disk put 3 0 1 <one_tile
        tells_behind "put: may only be read, $journal, which is told" 'in disk: Permission denied (os error 13)'
        expect "build: may only be read, $journal" 7 nothing 'store: NotEmpty 131282' "$reader" disk build 3 0 1 <one_tile
        still_has "a store that may only be read is as it was, $journal" bundle_2 "$journal"
    done
    # Its folder may be written, and so may the other of the two files: nothing is changed nor made.
    for words in put build; do
        may_be_read nothing none
        chmod 777 "$shared"
        expect "$words: an empty bundle that may only be read" 5 nothing "$no_volume" "$reader" disk "$words" 3 0 1 <one_tile
        tells_behind "$words: an empty bundle that may only be read is told" 'in disk: Permission denied (os error 13)'
        still_has "$words: an empty bundle that may only be read, and no journal is made" nothing none
    done
    may_be_read bundle_2 journal_2
    [ "$reader" = as_itself ] || chown 65534 "$shared/disk"
    chmod 644 "$shared/disk"
    expect 'put: a journal that may only be read' 5 nothing "$no_volume" "$reader" disk put 3 0 1 <one_tile
    tells_behind 'put: a journal that may only be read is told' 'in disk.jnl: Permission denied (os error 13)'
    still_has 'put: a journal that may only be read, and the store is as it was' bundle_2 journal_2
    # An open journal cannot be recovered from there.
    may_be_read torn open_2
    expect 'list: may only be read, and the journal is open' 5 nothing "$no_volume" "$reader" disk list
    still_has 'list: may only be read, and the journal is open, and it is as it was' torn open_2
fi
chmod 755 "$shared"

# ---- A disk that is full

# A disk of forty pages, which nobody else sees, has room for an empty bundle, and not for a tile of a lossless picture of
# 64 KB.
if unshare -m sh -c "mount -t tmpfs -o size=160k none '$shared'" 2>/dev/null; then
    mkdir full
    on_a_full_disk() { unshare -m sh -c 'mount -t tmpfs -o size=160k none full && exec "$@"' sh "$built" "$@" >out 2>err; }
    { printf 'LGR1'; numbers 1 1; numbers 4 256 256 1; ones 65536; noise 3 65536; } >noisy_grid
    tile 0 0 noisy_grid >noisy_tile
    for words in put build; do
        expect "$words: a disk that is full" 5 nothing "$no_volume" on_a_full_disk full/disk "$words" 3 0 1 <noisy_tile
        tells_behind "$words: a disk that is full is told" 'in full/disk: No space left on device (os error 28)'
    done
else
    echo 'skipped: a disk that is full, since nothing may be mounted here'
fi

# ---- No number can be held

# Below a root that may not be listed, with nothing else that opens: no bundle is opened, so that no closed stream's
# number goes to it.
if make_closed_root "$built"; then
    cp bundle_2 "$closed_root/disk"
    chmod 666 "$closed_root/disk"
    expect 'list: no folder opens' 5 nothing "$no_volume" in_closed_root disk list
    expect 'decode: no folder opens' 0 grid '' in_closed_root - decode <blob
    expect 'get: no folder opens, and the output is closed' 5 nothing "$no_volume" in_closed_root_unheard disk get 127 127 raw
    if cmp -s bundle_2 "$closed_root/disk"; then holds=yes; else holds=no; fi
    count 'get: no folder opens, and the bundle is as it was' "$holds"
    mkdir "$closed_root/tmp"
    chmod 755 "$closed_root/tmp"
    expect 'list: another folder than the root opens' 0 list_2 '' in_closed_root disk list
fi

# ---- Files longer than 4 GiB

# Almost all of it is a hole. The record of the next tile lies at this place.
begins_as bundle_2 journal_2
far=4294967301
if truncate -s "$far" disk; then holds=yes; else holds=no; fi
count 'a file of a little more than 4 GiB' "$holds"
echo 'put 0 0 66' >put_far
{ echo "0 0 $((far + 4)) 66"; cat list_2; } >list_far
check_lines 2 138 0 >check_far
tile 0 0 grid >first_tile
tail -c 146 bundle_2 >both_records
expect 'put: behind 4 GiB' 0 put_far '' plainly disk put 3 0 1 <first_tile
expect 'list: behind 4 GiB' 0 list_far '' plainly disk list
expect 'check: behind 4 GiB' 0 check_far '' plainly disk check
expect 'get: behind 4 GiB' 0 grid '' plainly disk get 0 0
expect 'get raw: behind 4 GiB' 0 blob '' plainly disk get 0 0 raw
expect 'get: before 4 GiB' 0 steps_grid '' plainly disk get 127 127
if [ "$(wc -c <disk)" -eq $((far + 70)) ] && head -c 131282 disk | tail -c 146 | cmp -s - both_records; then
    holds=yes
else
    holds=no
fi
count 'put: behind 4 GiB, and nothing before it is written' "$holds"
rm -f disk disk.jnl

# ---- Which names are synced

# The files and folders that a run syncs, by name, each once.
synced_by() {
    strace -f -y -e trace=fsync,fdatasync -o calls "$built" "$@" >out 2>err
    sed -n 's/.*sync([0-9]*<\([^>]*\)>) *= 0$/\1/p' calls | sort -u
}

synced_are() {
    name=$1
    shift
    printf '%s\n' "$@" | sort >wanted
    if cmp -s names wanted; then
        count "$name" yes
    else
        count "$name" no
        show 'what was synced' names
    fi
}

if ! command -v strace >/dev/null; then
    echo 'skipped: which names are synced, since there is no strace'
elif ! strace -o calls true 2>err; then
    echo 'skipped: which names are synced, since strace may trace nothing here'
else
    here_now=$(pwd -P)
    mkdir far_folder near_folder
    synced_by near_folder/disk put 3 0 1 <one_tile >names
    synced_are 'put: a first put syncs both files and their folder' \
        "$here_now/near_folder" "$here_now/near_folder/disk" "$here_now/near_folder/disk.jnl"
    synced_by near_folder/disk put 3 0 1 <one_tile >names
    synced_are 'put: a second put does, too' \
        "$here_now/near_folder" "$here_now/near_folder/disk" "$here_now/near_folder/disk.jnl"
    # Once for each of both files.
    if [ "$(grep -c "near_folder>)" calls)" -eq 2 ]; then holds=yes; else holds=no; fi
    count 'put: a second put syncs the folder once for each file' "$holds"
    synced_by near_folder/disk list >names
    synced_are 'list: the names are synced, too' \
        "$here_now/near_folder" "$here_now/near_folder/disk" "$here_now/near_folder/disk.jnl"
    cp near_folder/disk far_folder/disk
    ln -s ../far_folder/disk near_folder/link
    synced_by near_folder/link put 3 0 1 <one_tile >names
    synced_are 'put: of a link the folder of its file' "$here_now/far_folder" "$here_now/far_folder/disk" \
        "$here_now/near_folder" "$here_now/near_folder/link.jnl"
    rm -f near_folder/link.jnl
    synced_by near_folder/link list >names
    synced_are 'list: of a link alone the folder of its file' "$here_now/far_folder" "$here_now/far_folder/disk"
fi
