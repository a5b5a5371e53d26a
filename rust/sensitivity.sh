#!/usr/bin/env bash
# Shows that the differential run would see a fault: each edit below changes little, mostly one operand,
# in a copy of the original's source, and each must be reported as a difference and shrunk to a short list
# of calls. First the source as it is must give none. Prints a table (docs/SENSITIVITY.md).
#
#   ./sensitivity.sh [CALLS [FILE [FROM [TO]]]]
#
# FILE takes the edits of that file alone, FROM and TO those of such numbers. UNDERHILL_MEM_SRC names the folder
# with the original's three files, as for the oracle.
set -euo pipefail
cd "$(dirname "${BASH_SOURCE[0]}")"

calls=${1:-20000}
only=${2:-}
first=${3:-1}
last=${4:-${3:-1000}}
source=${UNDERHILL_MEM_SRC:-$PWD/../../shared/docs/src/openhcl/underhill_mem/src}
[ -f "$source/registrar.rs" ] || { echo "sensitivity.sh: the original's source is not in $source (UNDERHILL_MEM_SRC)" >&2; exit 2; }
target=${CARGO_TARGET_DIR:-target}/sensitivity
copy=$(mktemp -d)
trap 'rm -rf "$copy"' EXIT

number=0 tried=0 missed=0

# edit FILE FROM TO [FROM TO]: makes the edit in a copy and runs on it. FROM is replaced where it first stands, `N:FROM`
# where it stands for the Nth time.
edit() {
    local file=$1
    number=$((number + 1))
    if [ -n "$only" ] && [ "$file" != "$only" ] || [ "$number" -lt "$first" ] || [ "$number" -gt "$last" ]; then return; fi
    tried=$((tried + 1))
    cp "$source"/*.rs "$copy/"
    chmod u+w "$copy"/*.rs
    shift
    local shown=''
    while [ $# -gt 0 ]; do
        replace "$file" "$1" "$2" || { row "$file" "$1" "NOT FOUND"; return; }
        shown+="${shown:+ and }$(cell "${1#[0-9]:}")$(nth "$1") → $(cell "$2")"
        shift 2
    done
    local said
    if said=$(run); then
        row "$file" "$shown" "MISSED in $calls calls"
    else
        report "$file" "$shown" "$said"
    fi
}

# A run on the copy. Not optimized in full, and built from what is there: the edits come to one crate.
run() {
    UNDERHILL_MEM_SRC=$copy cargo build --offline --quiet --target-dir "$target" -p differential --bin differential >&2 || exit 2
    "$target"/debug/differential --calls "$calls" --seed 1 2>/dev/null
}

replace() {
    local nth=1 from=$2
    if [[ $from =~ ^([0-9]):(.*)$ ]]; then nth=${BASH_REMATCH[1]} from=${BASH_REMATCH[2]}; fi
    FROM=$from TO=$3 NTH=$nth perl -0pi -e 's/\Q$ENV{FROM}\E/++$n == $ENV{NTH} ? $ENV{TO} : $&/ge' "$copy/$1"
    ! cmp -s "$source/$1" "$copy/$1"
}

nth() { if [[ $1 =~ ^([0-9]): ]]; then echo " (number ${BASH_REMATCH[1]})"; fi; }

# What of a run is told: the lines of the shortest list, between two others.
report() {
    local list
    list=$(sed -n '/^The shortest list/,/^differs at/{/^    /{s/^    //;p}}' <<<"$3" | paste -sd';' | sed 's/;/; /g')
    case $list in
    '') row "$1" "$2" "NOT SHRUNK" ;;
    *) tell "$1" "$2" "$(cell "$list")" ;;
    esac
}

row() {
    missed=$((missed + 1))
    tell "$1" "$2" "**$3**"
}

tell() { echo "| $number | $1 | $2 | $3 |"; }

cell() { echo "\`$(tr '\n' ' ' <<<"$1" | sed 's/  */ /g; s/ *$//; s/|/\\|/g')\`"; }

cp "$source"/*.rs "$copy/"
chmod u+w "$copy"/*.rs
run >/dev/null || { echo "sensitivity.sh: the source as it is shows a difference" >&2; exit 2; }

echo '| | file | edit | shrunk to |'
echo '|---|---|---|---|'

# ---- the registrar

edit registrar.rs 'let end = range.end().div_ceil(self.granularity);' 'let end = range.end() / self.granularity;'
edit registrar.rs '..self.registration_offset + range.end(),' '..self.registration_offset + range.end() - PAGE_SIZE,'
edit registrar.rs 'return Err(range.start());' 'return Err(range.end());'
edit registrar.rs '..(address + len + (PAGE_SIZE - 1))' '..(address + len.max(1) + (PAGE_SIZE - 1))'
edit registrar.rs 'return Err(chunk * self.granularity);' 'return Err(requested_range.start());'
edit registrar.rs 'self.registered.set(chunk, true);' 'self.registered.set(chunk, chunk != 65);'
edit registrar.rs '&& previous.end() == range.start()' '&& previous.end() == range.end()'
edit registrar.rs '} else if span.start() != aligned_range.start() {' '} else if span.end() != aligned_range.end() {'
edit registrar.rs 'MemoryRange::new(start..aligned_range.end());' 'MemoryRange::new(start..span.end());'
edit registrar.rs 'in start / self.granularity..chunk {' 'in start / self.granularity + 1..chunk {'
edit registrar.rs 'entry.range.overlaps(&edge)' 'entry.range.overlaps(&span)'
edit registrar.rs 'if state.failed.get_mut(chunk) {' 'if state.failed.get_mut(chunk) && chunk != 1 {'
edit registrar.rs '.fetch_or(1 << (chunk % 64), Release);' '.fetch_or(1 << (chunk % 64).min(62), Release);'
edit registrar.rs 'state.failed.set_mut(chunk, true);' 'state.failed.set_mut(chunk, chunk < 64);'
edit registrar.rs '..(chunk + 1) * self.granularity);' '..(chunk + 2) * self.granularity);'
edit registrar.rs 'MemoryRange::new(aligned_range.end()..span.end())' 'MemoryRange::new(aligned_range.start()..span.end())'
edit registrar.rs 'vnode: entry.vnode,' 'vnode: self.ram_with_node[0].vnode,'
edit registrar.rs 'node_range: entry.range,' 'node_range: span,'
edit registrar.rs 'unregistered_run_start.get_or_insert(' 'unregistered_run_start.insert('
edit registrar.rs 'let words = chunks.div_ceil(64);' 'let words = chunks.div_ceil(64).min(512);'
edit registrar.rs '.load(Acquire) & (1 << (chunk % 64)) != 0' '.load(Acquire) & (1 << (chunk % 64)) != 0 || chunk == 32_768'

# ---- visibility changes

edit lib.rs 'if shared && vtl == GuestVtl::Vtl0 {' 'if shared && vtl == GuestVtl::Vtl1 {'
edit lib.rs 'inner.valid_shared.check_valid(gpn) != shared {' 'inner.valid_shared.check_valid(gpn) != shared || gpn == 9 {'
edit lib.rs '*gpn == failed_gpns[0]' '*gpn == gpns[0]'
edit lib.rs 'in [GuestVtl::Vtl0, GuestVtl::Vtl1] {' 'in [GuestVtl::Vtl1, GuestVtl::Vtl0] {'
edit lib.rs 'gpns.split_at(err.processed);' 'gpns.split_at(err.processed / 2);'
edit lib.rs 'return Err((HvError::OperationDenied, 0));' 'return Err((HvError::OperationDenied, 1));'
edit lib.rs 'if self.acceptor.isolation == IsolationType::Snp {' 'if self.acceptor.isolation == IsolationType::Tdx {'
edit lib.rs 'clear_bitmap.update_valid(range, true);' 'clear_bitmap.update_valid(range, false);'
edit lib.rs 'if self.flags.tdx_page_release_required {' 'if !self.flags.tdx_page_release_required {'
edit lib.rs 'flags.tdx_page_release_required = true;' 'flags.tdx_page_release_required = false;'
edit lib.rs '.pvalidate_pages(range, false, false).unwrap()' '.pvalidate_pages(range, true, false).unwrap()'
edit lib.rs 'failed_vtl_permission_index = Some(index);' 'failed_vtl_permission_index = Some(index + 1);'
edit lib.rs 'if vtl == GuestVtl::Vtl0 && shared &&' 'if shared &&'
edit lib.rs '!permissions.readable() || !permissions.writable()' '!permissions.readable() && !permissions.writable()'
edit lib.rs 'if shared && inner.overlay_pages[vtl].iter()' 'if inner.overlay_pages[vtl].iter()'
edit lib.rs 'if let IsolationType::Snp = self.acceptor.isolation {' 'if let IsolationType::Tdx = self.acceptor.isolation {'
edit lib.rs '(Err((err.source, failed_index)), ranges)' '(Err((HvError::OperationDenied, failed_index)), ranges)'
# Zero before Accept.
edit lib.rs 'self.acceptor
                    .accept_lower_vtl_pages(range)' 'if self.acceptor.isolation == IsolationType::Snp { inner.encrypted.zero_range(range).unwrap() }
                self.acceptor.accept_lower_vtl_pages(range)' \
    '2:if self.acceptor.isolation == IsolationType::Snp {' 'if false {'
edit lib.rs '.accept_lower_vtl_pages(range)' '.accept_lower_vtl_pages(ranges[0])'
edit lib.rs 'vtl1: None,' 'vtl1: Some(HV_MAP_GPA_PERMISSIONS_NONE),'
edit lib.rs 'inner.default_vtl_permissions.vtl0,' 'HV_MAP_GPA_PERMISSIONS_ALL,'

# ---- queries, defaults and protections

edit lib.rs 'return Err((HvError::OperationDenied, i));' 'return Err((HvError::OperationDenied, 0));'
edit lib.rs 'inner.valid_shared.check_valid(*gpn)' 'inner.valid_shared.check_valid(gpns[0])'
edit lib.rs 'overlay_page.previous_permissions = vtl_protections;' 'overlay_page.overlay_permissions = vtl_protections;'
edit lib.rs 'if inner.valid_encrypted.check_valid(gpn) {' 'if inner.valid_encrypted.check_valid(gpn) || gpn == 9 {'
edit lib.rs 'self.check_gpn_not_locked(&inner, target_vtl, gpn)?;' 'self.check_gpn_not_locked(&inner, GuestVtl::Vtl0, gpn)?;'
edit lib.rs 'protect_start = (gpn + 1) * PAGE_SIZE as u64;' 'protect_start = gpn * PAGE_SIZE as u64;'
edit lib.rs 'if !right.is_empty() {' 'if right.len() > HV_PAGE_SIZE {'
edit lib.rs 'tlb_access.flush(GuestVtl::Vtl0);' 'tlb_access.flush(target_vtl);'
edit lib.rs '2:tlb_access.flush(GuestVtl::Vtl0);' 'tlb_access.flush(target_vtl);'
edit lib.rs 'tlb_access.set_wait_for_tlb_locks(target_vtl);' 'tlb_access.set_wait_for_tlb_locks(GuestVtl::Vtl0);'
edit lib.rs 'GuestVtl::Vtl1 => self.vtl1 = Some(permissions),' 'GuestVtl::Vtl1 => self.vtl0 = permissions,'
edit lib.rs 'gpns.iter().any(|&gpn| inner.valid_shared' 'gpns.iter().all(|&gpn| inner.valid_shared'
edit lib.rs 'if inner.overlay_pages[target_vtl].iter().any(' 'if inner.overlay_pages[GuestVtl::Vtl0].iter().any('
edit lib.rs '.with_enable_user_execute(protections.user_executable())' '.with_enable_user_execute(protections.kernel_executable())'
edit lib.rs 'GuestVtl::Vtl0 => x86defs::snp::Vmpl::Vmpl2.into(),' 'GuestVtl::Vtl0 => x86defs::snp::Vmpl::Vmpl1.into(),'
edit lib.rs 'TdgMemPageGpaAttr::new().with_l2_vm2(vm_attributes);' 'TdgMemPageGpaAttr::new().with_l2_vm1(vm_attributes);'

# ---- overlays, locks and settings

edit lib.rs 'let needed_perms = new_perms.unwrap_or(check_perms);' 'let needed_perms = check_perms;'
edit lib.rs 'registered.ref_count += 1;' 'registered.ref_count += 2;'
edit lib.rs 'if overlay_pages[index].ref_count > 1 {' 'if overlay_pages[index].ref_count > 2 {'
edit lib.rs 'overlay_permissions: new_perms.unwrap_or(current_perms),' 'overlay_permissions: current_perms,'
edit lib.rs 'check_perms.into_bits() != current_perms.into_bits()' 'check_perms.into_bits() != check_perms.into_bits()'
edit lib.rs 'overlay_pages[index].gpn_source,' 'GpnSource::GuestMemory,'
edit lib.rs 'overlay_pages[index].previous_permissions,' 'overlay_pages[index].overlay_permissions,'
edit lib.rs 'tlb_access.flush(vtl);' 'tlb_access.flush(GuestVtl::Vtl0);'
edit lib.rs '2:tlb_access.set_wait_for_tlb_locks(vtl);' 'tlb_access.set_wait_for_tlb_locks(GuestVtl::Vtl0);'
edit lib.rs 'overlay_pages.remove(index);' 'overlay_pages.swap_remove(index);'
edit lib.rs 'if gpn_source == GpnSource::GuestMemory && target_vtl == GuestVtl::Vtl0 {' 'if gpn_source == GpnSource::GuestMemory {'
edit lib.rs 'if inner.locked_pages[vtl].iter().flatten()' 'if inner.locked_pages[GuestVtl::Vtl0].iter().flatten()'
edit lib.rs '&& !inner.overlay_pages[vtl].iter()' '&& !inner.overlay_pages[GuestVtl::Vtl1].iter()'
edit lib.rs 'self.inner.lock().overlay_pages[vtl]' 'self.inner.lock().overlay_pages[GuestVtl::Vtl0]'
edit lib.rs 'self.inner.lock().locked_pages[vtl].push' 'self.inner.lock().locked_pages[GuestVtl::Vtl0].push'
edit lib.rs 'locked_pages.swap_remove(i);' 'locked_pages.remove(i);'
edit lib.rs 'if **w == *gpns {' 'if w.len() == gpns.len() {'
edit lib.rs 'self.vtl1_protections_enabled.store(true, Ordering::Relaxed);' 'self.vtl1_protections_enabled.store(false, Ordering::Relaxed);'
edit lib.rs 'self.inner.lock().default_vtl_permissions.vtl0' 'self.inner.lock().default_vtl_permissions.vtl1.unwrap_or(HV_MAP_GPA_PERMISSIONS_ALL)'

# ---- maps and faults

edit mapping.rs 'b &= !(1 << (gpn % Self::PAGES_PER_CHUNK));' 'b &= !(1 << (gpn / Self::PAGES_PER_CHUNK % 8));'
edit mapping.rs 'b |= 1 << (gpn % Self::PAGES_PER_CHUNK);' 'b |= 1 << (gpn % Self::PAGES_PER_CHUNK).min(6);'
edit mapping.rs '(aligned_range.len() / Self::BYTES_PER_CHUNK) as usize,' '(aligned_range.len() / Self::BYTES_PER_CHUNK).min(2) as usize,'
edit mapping.rs 'let page_count = bitmap_page_end + 1 - bitmap_page_start;' 'let page_count = (bitmap_page_end - bitmap_page_start).max(1);'
edit mapping.rs '(address_space_size / PAGE_SIZE).div_ceil(Self::PAGES_PER_CHUNK as usize),' '(address_space_size / PAGE_SIZE).div_ceil(Self::PAGES_PER_CHUNK as usize).min(4096),'
edit mapping.rs 'b & (1 << (gpn % Self::PAGES_PER_CHUNK)) != 0' 'b & (1 << (gpn % Self::PAGES_PER_CHUNK)) != 0 && gpn != 32_768'
edit mapping.rs 'bitmaps.write_bitmap.update(range, flags.writable());' 'bitmaps.write_bitmap.update(range, flags.readable());'
edit mapping.rs '.with_writable(bitmaps.write_bitmap.page_state(gpn))' '.with_writable(bitmaps.read_bitmap.page_state(gpn))'
edit mapping.rs 'if !bitmap_failure {' 'if bitmap_failure {'
edit mapping.rs 'GuestMemoryErrorKind::NotShared,' 'GuestMemoryErrorKind::NotPrivate,'
edit mapping.rs 'let check_bitmap = if write {' 'let check_bitmap = if !write {'
edit mapping.rs 'GuestMemoryViewReadType::Read => &permission_bitmaps.read_bitmap,' 'GuestMemoryViewReadType::Read => &permission_bitmaps.user_execute_bitmap,'
edit mapping.rs '&permission_bitmaps.kernel_execute_bitmap' '&permission_bitmaps.user_execute_bitmap'
edit mapping.rs 'let gpn = address / PAGE_SIZE as u64;' 'let gpn = (address + 1) / PAGE_SIZE as u64;'

# ---- the registrar's layouts that end high

edit registrar.rs 'return Err(range.start());' 'return Err(range.start() / self.granularity * self.granularity);'

echo
echo "sensitivity: $tried edits, $missed missed"
[ "$missed" -eq 0 ]
