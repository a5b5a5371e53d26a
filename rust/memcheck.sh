#!/usr/bin/env bash
# Runs the port on words and bytes that no caller means, under valgrind's memcheck: no invalid access,
# no crash, and an answer to every line.
#
#   ./memcheck.sh [CALLS [SEED]]
#
# 1. CALLS calls of the protector's entries on forged state, tables and maps (differential's raw part);
# 2. CALLS calls of the registrar's entries on forged state and bitmaps (registrar-raw), and its raw test;
# 3. CALLS lines of garbage and of spoilt commands put to `port`.
set -euo pipefail
cd "$(dirname "${BASH_SOURCE[0]}")"

calls=${1:-5000}
seed=${2:-1}
built=${CARGO_TARGET_DIR:-target}/release
memcheck=(valgrind --quiet --error-exitcode=99 --leak-check=full
    --show-leak-kinds=definite --errors-for-leak-kinds=definite)
release() { cargo build --offline --quiet --release "$@"; }

release -p differential --bin differential
release -p port
echo "== the protector's entries, $calls calls"
"${memcheck[@]}" "$built"/differential --part raw --calls "$calls" --seed "$seed" | tail -n 2

echo "== the registrar's entries, $calls calls, and any words in any lengths"
"${memcheck[@]}" "$built"/differential --part registrar-raw --calls "$calls" --seed "$seed" | tail -n 2
made=$(cargo test --offline --release --no-run -p underhill_mem_port --test raw --message-format=json 2>/dev/null)
raw=$(grep -o '"executable":"[^"]*/raw-[^"]*"' <<<"$made" | cut -d'"' -f4)
"${memcheck[@]}" "$raw" --quiet --test-threads=1 any_words | grep 'test result'

echo "== lines, $calls of them"
folder=$(mktemp -d)
trap 'rm -rf "$folder"' EXIT
perl - "$calls" "$seed" >"$folder/lines" <<'PERL'
# Commands with a few characters changed, dropped or doubled; any bytes now and then.
my ($count, $seed) = @ARGV;
srand($seed);
my @commands = (
    'build iso=snp tracked=1 release=0 ram=0-65536:0,131072-163840:1', 'build iso=tdx release=1 ram=0-4194304:7',
    'build iso=cca ram=0-32768:0', 'registrar offset=0 granularity=65536 ram=0-65536:0,131072-163840:1',
    'change_host_visibility 0 shared 3-5,9', 'change_host_visibility 0 private 9,3-5 fail=3:5:1',
    'change_host_visibility 1 shared hex:0300000000000000', 'query_host_visibility 3,4,9 3',
    'change_vtl_protections 0 5 6-7', 'change_default_vtl_protections 1 3', 'register_overlay_page 0 8 guest 1 3',
    'register_overlay_page 1 1099511627776 dma 0 .', 'unregister_overlay_page 0 8', 'is_overlay_page 1 1099511627776',
    'lock_gpns 0 1,2', 'unlock_gpns 0 1,2', 'set_vtl1_protections_enabled', 'vtl1_protections_enabled',
    'default_vtl0_protections', 'query_lower_vtl_permissions 0 9', 'query_access_permission 9',
    'page_fault encrypted kx 36864 1 1', 'page_fault shared read 18446744073709551615 0 1',
    'query_lower_vtl_permissions 0 4503599627370499', 'query_access_permission 40',
    'permissions snp 1 7', 'dump', 'tables', 'register 4096 1',
    'register_all_aligned 65536 1', 'rdump', 'trace 1', 'step 1', 'step 0', 'answer done', 'answer failed 5 1',
    'ranswer done', 'ranswer failed 5 0', 'lend private=7 tables=3', 'lend state=1', 'lend registered=9',
);
my @marks = split //, '0123456789-,.:=# xfa';
for (1 .. $count) {
    my $line = $commands[rand @commands];
    my $kind = rand;
    if ($kind < 0.1) {
        $line = join '', map { chr(11 + int rand 245) } 1 .. rand 60;
    } elsif ($kind < 0.6) {
        for (1 .. 1 + rand 3) {
            my $at = int rand length $line;
            my $new = rand() < 0.5 ? $marks[rand @marks] : '';
            substr($line, $at, rand() < 0.7 ? 1 : 0) = $new;
            $line = 'dump' if $line eq '';
        }
    }
    $line =~ s/^[\s#]+//;
    # A layout that is fit by chance may want terabytes for its maps.
    $line = 'dump' if $line eq '' or $line =~ /\d{8,}/ and $line =~ /ram=/;
    print "$line\n";
}
PERL
"${memcheck[@]}" "$built"/port <"$folder/lines" >"$folder/answers"
wc -l <"$folder/answers" | xargs echo "answers:"
[ "$(wc -l <"$folder/lines")" = "$(wc -l <"$folder/answers")" ]
cut -d' ' -f1 "$folder/answers" | sort | uniq -c | sort -rn
echo "memcheck: clean"
