#!/usr/bin/env bash
# What the compiler made of the identifier: tests/blake3/look.sh [ARCHIVE], the panel's static library if none is named. look.py says what is looked for: a
# block's words are loaded once, and no byte of the content between the first and the last round.
set -eu
archive=${1:+$(realpath "$1")}
cd "$(dirname "$0")/../.."
. tools/setup.sh
need_packages binutils python3
if [ -z "$archive" ]; then
    need_library
    archive=$PLUMTREE_LIB_DIR/libplumtree.a
fi
work=$(mktemp -d)
trap 'rm -rf "$work"' EXIT
objdump -dr --no-show-raw-insn "$archive" >"$work/code"
python3 tests/blake3/look.py <"$work/code"

# and each of these changes of the code is seen: refused WHAT FUNCTION CHANGE WORDS, where the look has to fail with the words
refused() {
    sed -E "/<blake3::$2>:/,/ret/$3" "$work/code" >"$work/changed"
    ! cmp -s "$work/code" "$work/changed" || die "blake3: no $1 to change"
    ! python3 tests/blake3/look.py <"$work/changed" >"$work/said" 2>&1 || die "blake3: $1 is not seen"
    grep -q "$4" "$work/said" || die "blake3: $1 is not seen as such: $(tail -n 1 "$work/said")"
}
one=compress::compress_in_place
four=lanes::compress
refused "a word of the content" $one 's/movss  \(%rsi\),/movss  (%r14,%r15,1),/' 'an address that is not known'
refused "a word loaded twice" $one 's/movss  0x14\(%rsi\),/movss  0x10(%rsi),/' 'not loaded once each'
refused "two words loaded at once" $one 's/movss  0x14\(%rsi\),/movsd  0x14(%rsi),/' 'not loaded once each'
refused "a call between rounds" $one 's/pslld  \$0x19,%xmm.*/call   0 <f>/' 'call is not among'
refused "a loop over rounds" $one 's/pslld  \$0x19,%xmm.*/jb     0 <f>/' 'jb is not among'
refused "a rotation less" $one 's/psrld  \$0x7,%xmm2/psrld  $0x6,%xmm2/' 'rotations of rounds'
refused "rounds elsewhere" chunk::chunk 's/mov    \$0x40,%ecx/psrld  $0x10,%xmm0/' 'rotations of rounds'
refused "words in the content" chunk::chunk 's/lea    0x[0-9a-f]+\(%rsp\),%rsi/lea    (%r14,%r15,1),%rsi/' 'not known to be in the frame'
refused "a jump to the rounds" tree::full 's/call  ( .*tree::full\+)/jmp   \1/' 'not known to be in the frame'
refused "a vector of words of the content" $four 's/movdqu 0x10\(%rdx\),/movdqu 0x10(%r14,%r15,1),/' 'an address that is not known'
refused "a vector of words loaded twice" $four 's/movdqu 0x10\(%rdx\),/movdqu 0x20(%rdx),/' 'not loaded once each'
refused "a call between the rounds of four blocks" $four 's/pslld  \$0x19,%xmm.*/call   0 <f>/' 'call is not among'
refused "words of four blocks in the content" lanes::chunks 's/lea    0x[0-9a-f]+\(%rsp\),%rdx/lea    (%r14,%r15,1),%rdx/' 'not known to be in the frame'
