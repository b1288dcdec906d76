#!/usr/bin/env bash
# The comparison's teeth: each mutant is one small fault put into a copy of the
# Rust, and the recorded scripts must then show a difference. Not part of the gate
# (a quarter of an hour); needs what `run` has built.
#   mutants.sh [NAME | NAME..]     one, or from one on
# Status 1 if a mutant is not caught or an edit does not apply.
set -u -o pipefail
cd "$(dirname "$0")" || exit 2
only=${1:-}
work=target/mutants
bad=0
rm -rf $work/oracle $work/port
mkdir -p $work/oracle $work/port
cp -r ../oracle/{device_api,services,driver} $work/oracle/
cp -r Cargo.toml Cargo.lock build.rs src $work/port/
store=$work/oracle/services/src/store.rs
export RUSTFLAGS="-L native=$PWD/../../target/staticlib"
export CARGO_PROFILE_RELEASE_OPT_LEVEL=1 CARGO_PROFILE_RELEASE_DEBUG=0 # a mutant is built more often than run

try() { # NAME, OLD TEXT, NEW TEXT
    [ "$only" != "$1.." ] || only=
    [ -z "$only" ] || [ "$only" = "$1" ] || return 0
    cp ../oracle/services/src/store.rs $store
    python3 - $store "$2" "$3" <<'P' || { echo "$1: EDIT FAILED"; bad=1; return 0; }
import sys
path, old, new = sys.argv[1:4]
text = open(path).read()
assert text.count(old) == 1, (text.count(old), old)
open(path, "w").write(text.replace(old, new))
P
    cargo build -j1 --release --offline --locked -q --manifest-path $work/port/Cargo.toml --target-dir $work/built --bin replay >$work/build.log 2>&1 ||
        { echo "$1: BUILD FAILED"; head -5 $work/build.log; bad=1; return 0; }
    local out
    if out=$($work/built/release/replay scripts/*.txt ../oracle/scripts/edges.txt ../oracle/scripts/audit/*.txt 2>&1); then
        echo "$1: NOT CAUGHT"
        bad=1
    else
        echo "$1: caught, $(grep -m1 -A1 ', line ' <<<"$out" | paste -sd' ' | cut -c1-100)"
    fi
}

try equal-generations-b 'b.generation > a.generation' 'b.generation >= a.generation'
try foreign-next-id '|| head.next_id == 0' ''
try foreign-zeros '|| sector[56..CRCS].iter().any(|b| *b != 0)' ''
try foreign-is-damaged 'Replica::Foreign => return Err(Error::Foreign)' 'Replica::Foreign => damaged = true'
try entry-tail '.chain(&bytes[NAME + 4..])' ''
try entry-id-0 'if id == 0
        || bytes[length..NAME]' 'if bytes[length..NAME]'
try find-reads-on 'found.is_some()
        })?;' 'false
        })?;'
try list-all '&& name.is_in(dir)
            {
                visit(&Entry' '&& (name.is_in(dir) || id > 1)
            {
                visit(&Entry'
try link-records-at-size 'records < self.head.chunk =>' 'records <= self.head.chunk =>'
try chain-first-lowest 'if link.position == 0 {' 'if link.position == 0 && first.is_none() {'
try chain-unchecked 'if position + 1 == count =>' 'if position < count + 9 =>'
try locate-lowest '&& (link.slot, link.position) == (slot, position)' '&& found.is_none() && (link.slot, link.position) == (slot, position)'
try record-without-file-id '&& get_u32(sector, 12) == id' '&& (id > 0)'
try record-without-number '&& get_u32(sector, 16) == number' '&& number < u32::MAX'
try record-length-0 '(1..=PAYLOAD).contains(&length)' '(0..=PAYLOAD).contains(&length)'
try hole-past-partial 'let limit = self.end.unwrap_or(chunk);' 'let limit = chunk;'
try partial-end-unseen 'then(|| partial.unwrap_or(store.head.chunk))' 'then(|| partial.map_or(store.head.chunk, |_| store.head.chunk))'
try reader-never-stale 'if (self.store, self.generation) != (store.head.id, store.head.generation) {' 'if self.store != store.head.id {'
try seek-keeps-index '(self.position, self.index) = (self.chunks, 0);' 'self.position = self.chunks;'
try hole-not-passed 'self.index = after;
            let to = self.record(store);' 'let to = from + after - self.index;'
# ---- the calls that write
try format-newest-a 'let newest = (0..2)
        .filter_map' 'let newest = (0..2).rev()
        .filter_map'
try format-over-the-newest 'map_or(0, |(copy, _)| 1 - copy)' 'map_or(0, |(copy, _)| copy)'
try format-first-in-b 'map_or(0, |(copy, _)| 1 - copy)' 'map_or(1, |(copy, _)| 1 - copy)'
try format-id-again '|| copies.iter().flatten().any(|head| head.id == id)' ''
try format-magic-first 'sector[..MAGIC.len()].fill(0);' ''
try format-body-short 'sector.fill(0);
    for k in 0..body {' 'sector.fill(0);
    for k in 1..body {'
try format-generation 'newest.map_or(0, |(_, generation)| generation) + 1' 'newest.map_or(1, |(_, generation)| generation) + 1'
try format-zero-chunks-first 'let (copies, _) = headers(media, sector)?;
    let data' 'if media.owned_info()?.sectors < DATA + u64::from(chunk) { return Err(Error::Range); }
    let (copies, _) = headers(media, sector)?;
    let data'
try commit-old-store 'if (now.copy, now.head) != (self.copy, self.head) {' 'if now.copy != self.copy {'
try commit-header-stays 'media.owned_write(base(target), sector)?;
        let mut head = self.head;' 'let mut head = self.head;'
try commit-writes-more 'if holds != Some(head.crcs[k]) {' 'if changing || holds != Some(head.crcs[k]) {'
try commit-trusts-the-other '.filter(|o| (o.id, o.chunks, o.chunk) == (head.id, head.chunks, head.chunk))' '.filter(|o| o.chunk > 0 && head.id > 0)'
try commit-body-unchecked 'self.body(media, k, sector)?;
            if changing' 'media.owned_read(base(self.copy) + 1 + k as u64, sector)?;
            if changing'
try commit-reads-all 'if !changing && holds == Some(self.head.crcs[k]) {' 'if !changing && holds == Some(self.head.crcs[k]) && self.body(media, k, sector).is_ok() {'
try create-last-slot 'free.get_or_insert(slot);' 'free = Some(slot);'
try create-exists-last 'exists |= n == *name' 'exists = n == *name'
try create-cursor-stays 'let cursor = (chunk + 1) % self.head.chunks;' 'let cursor = chunk;'
try create-spares-the-open 'self.remove_oldest(media, &dir, None, sector)?.is_some()' 'self.remove_oldest(media, &dir, self.writer.map(|w| w.id), sector)?.is_some()'
try create-three-rounds 'for _ in 0..2 {' 'for _ in 0..3 {'
try create-one-round 'for _ in 0..2 {' 'for _ in 0..1 {'
try create-table-always 'None => None,
            };
            if let (Some(slot), Some(chunk))' 'None => { self.free_chunk(media, sector)?; None }
            };
            if let (Some(slot), Some(chunk))'
try free-from-0 '(chunk + chunks - cursor) % chunks;' '(chunk + chunks - cursor.min(0)) % chunks;'
try token-skips 'fetch_add(1, Ordering::Relaxed).wrapping_add(1)' 'fetch_add(2, Ordering::Relaxed).wrapping_add(2)'
try open-goes-on 'records => Tail::Reopened(records),' 'records => Tail::At(records),'
try open-full-reopened 'full if full == chunk => Tail::At(chunk),' 'full if full > chunk => Tail::At(chunk),'
try open-empty-reopened '0 => Tail::At(0),
            full if' 'full if full > chunk => Tail::At(0),
            full if'
try open-last-highest 'if last.is_none_or(|(p, _)| link.position > p) {' 'if last.is_none_or(|(p, _)| link.position >= p) {'
try remove-stays-open 'if self.writer.is_some_and(|writer| writer.id == id) {' 'if self.writer.is_some_and(|writer| writer.id == 0 && id == 0) {'
try remove-closes-any 'if self.writer.is_some_and(|writer| writer.id == id) {' 'if self.writer.is_some_and(|writer| writer.id >= id) {'
try remove-valid-links 'usize::from(get_u16(s, 4 * i) & OWNER) == slot + 1' 'usize::from(get_u16(s, 4 * i)) == slot + 1'
try remove-one-table 'let tables = ((1u32 << self.head.table()) - 1) << DIR_SECTORS;' 'let tables = 1u32 << DIR_SECTORS;'
try oldest-highest-slot 'oldest.is_none_or(|(_, _, o)| id < o)' 'oldest.is_none_or(|(_, _, o)| id <= o)'
try oldest-open-goes '&& keep != Some(id)' '&& keep != Some(0)'
try append-stays-open 'if written.is_err() {
            self.tail = Tail::Closed;' 'if written.is_err() {'
try append-closed-writes '|| self.tail == Tail::Closed' ''
try append-stale-closes 'self.check(store)?;
        while !bytes.is_empty() {' 'if let Err(e) = self.check(store) { self.tail = Tail::Closed; return Err(e); }
        while !bytes.is_empty() {'
try append-buffer-cleared 'self.fill = 0;
        Ok(())' 'self.fill = 0;
        self.buffer = [0; PAYLOAD];
        Ok(())'
try append-one-late 'if self.fill == PAYLOAD {' 'if self.fill == PAYLOAD && !bytes.is_empty() {'
try sync-one-byte 'if self.fill > 0 {' 'if self.fill > 1 {'
try record-rest-left 'sector.fill(0);
        sector[..4].copy_from_slice(RECORD);' 'sector[..4].copy_from_slice(RECORD);'
try record-number-in-chunk 'put_u32(sector, 16, self.position * chunk + index);' 'put_u32(sector, 16, index);'
try extend-own-goes 'if store.delete_oldest(media, &dir, sector)?.is_none() {' 'if store.remove_oldest(media, &dir, None, sector)?.is_none() {'
try extend-full-not-corrupt 'store.free_chunk(media, sector)?.ok_or(Error::Corrupt)?' 'store.free_chunk(media, sector)?.ok_or(Error::Full)?'
try extend-unmarked 'let change = (1 << link_k) | u32::from(partial.is_some()) << last_k;' 'let change = 1 << link_k;'
try extend-link-last 'if partial.is_some() && k == last_k {' 'if partial.is_some() && k == last_k && next != last {'
try extend-moves-early 'let (last, slot, position) = (self.chunk, self.slot, self.position);
        let (link_k' 'let (last, slot, position) = (self.chunk, self.slot, self.position);
        self.chunk = next;
        let (link_k'
try link-partial-unset '.map_or((0, 0), |records| (records as u16, PARTIAL));' '.map_or((0, 0), |records| (records as u16, 0));'
exit $bad
