# SPDX-License-Identifier: MIT OR Apache-2.0
# shellcheck shell=bash
# The runs of tests/linux/run --nightly. To be sourced there.

nightly() {
    local edit
    right recorder xhci recorder
    right zero xhci zero
    right recorder ehci recorder-ehci
    right zero ehci zero-ehci

    # a bus that does not wait: a microframe of 120 or 300 accesses, tokens 1 to 3 or 1 to 6 of them apart; packets come
    # late then, and random bytes may be cut (docs/DIFFERENCES.md 3)
    CLOCK=120 GAP=3 LATE=1 right recorder xhci recorder-clock-120
    CLOCK=300 GAP=6 LATE=1 right recorder xhci recorder-clock-300
    CLOCK=120 GAP=3 LATE=1 BLOCK=-DNAKED_TOKENS_SHOW=0 right recorder xhci recorder-clock-naks-hidden
    # one packet in four comes while the firmware looks
    SLOW=4 LATE=1 right recorder xhci recorder-slow-packets
    # a card that takes up to 80 steps of the bus for a block: overruns, all of them counted
    CARD_BUSY=80 FLOOR=3000 right recorder xhci recorder-slow-card

    # suspends, resets and unpluggings in mid-stream, ten of each; a million packets
    ROUNDS=10 LIMIT=300 right recorder xhci recorder-rounds
    ROUNDS=10 LIMIT=300 right zero xhci zero-rounds
    URBS=5900 FLOOR=1000000 LIMIT=900 right recorder xhci recorder-million

    # the C of firmware, model and bridge under the address and undefined-behaviour sanitizers
    SANITIZE=1 right recorder xhci recorder-sanitized
    SANITIZE=1 right zero xhci zero-sanitized

    for edit in $(edits all); do wrong "$edit"; done
}
