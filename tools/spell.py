#!/usr/bin/env python3
"""Respells this repository's own definitions and lemmas in snake case, once, after the kit's port.py.

Run at the top of the repository. A name of the list gets `_` for each dash wherever it stands whole
in specs/, proofs/ and src/, and between backticks in README.md and docs/. Names that join the names of
two definitions, as `length-records`, keep their dash. It refuses to run where two names would fall together.
"""
import collections
import glob
import re
import sys

NAMES = """
    action-by after-space all-sent answer-text answered-with as-reaction asked-if before-space
    began-read begin-fit begins-as begun-by begun-idle best-fits bid-code bid-decoded bid-words
    blank-cell blank-fit blank-fits blank-page blank-record blank-timestamp buyer-back buyer-of
    by-page by-pairs bytes-back-record calls-again cause-layer cause-number cause-replica code-fits
    code-parts coded-here command-at command-by command-of cond-ap count-in crashed-at crashed-by
    digit-first digits-end dispatch-fit dispatch-left dispatch-length effect-fit eight-bytes
    eight-number enough-heard event-by event-of fault-number fault-words fed-lines file-held
    file-length file-of file-stored first-four fitness-parts fits-from four-number front-is
    goes-nowhere has-stored head-fits hear-ack hear-report heard-first heard-fits heard-held
    hearing-report hears-ack hears-report heavy-laws heavy-more heavy-shared if-passed in-other
    input-lines intended-fits intended-if is-idle is-over is-reading is-waiting joined-more
    joined-parts joined-up keeps-not kind-after kind-in last-piece layer-of layer-under left-under
    length-bytes length-file length-joined length-record line-ended lines-rehearsed long-event
    long-opening lowest-found lowest-here lowest-more lowest-shared lowest-unfit made-number
    majority-enough majority-made majority-of majority-size message-at message-fit message-fits
    message-in most-laws newest-of newest-to next-code next-round next-sequence no-bid no-message
    no-replica no-replicas none-stored number-after number-back number-in-part of-kind offer-is
    offer-of offer-or-open on-ack on-recovering on-report on-request on-update open-bid open-number
    open-words opened-by outcome-of outcome-text own-fits padded-more page-at page-fit page-fits
    page-in page-parts page-read pages-after pair-bytes pair-there pairs-bytes part-above part-back
    part-below part-from part-joined part-written piece-more price-back price-of putMid-is
    queries-on raised-fits raised-if ran-fit reaction-fit read-updates reader-updates reason-number
    reason-words receipt-fits receipt-stores received-at received-fit record-at record-back
    record-bytes record-fit record-fits record-in record-set-fit record-there records-after
    records-bytes records-with recovered-at recovered-from recovers-as recovery-fits recovery-stores
    refusal-number register-setup register-state replica-of replicas-within replied-by reply-text
    resends-query resends-update resent-by right-from right-pair run-answers run-leads same-file
    same-table searched-on sent-count sent-more sent-to-all session-lines session-of set-of
    setup-made setup-of small-part span-back span-code span-decoded span-words stage-of state-made
    state-of status-of store-fit stores-answered stores-left stores-taken table-setup table-state
    timestamp-words total-changed total-same total-weight transit-count transit-fit tried-if
    updates-on used-up valid-of wanted-fits weigh-no weigh-same weigh-yes weight-at weighted-enough
    weighted-made weighted-of weightless-made where-both whole-file with-digit with-effect
    with-record with-replica with-sent with-status with-transit with-written within-range
    without-fit write-all write-and-read write-at write-ends write-fails write-more write-none
    write-number write-of write-updates write-words write-write writer-updates written-fits
    wrong-from wrong-pair zero-b zero-valid
""".split()

WORD = re.compile(r"(?<![A-Za-z0-9_'-])(" + "|".join(sorted(map(re.escape, NAMES), key=len, reverse=True)) + r")(?![A-Za-z0-9_'-])")
DECLARED = re.compile(r"^[ ]*(?:(?:pub|abbrev|unfoldable) +)*(?:record +|data +|let +)?([^\s:(){}.,;=λ|]+) *(?:[({][^=\n]*?)? : ", re.M)


def respelled(text):
    return WORD.sub(lambda found: found.group(1).replace("-", "_"), text)


def in_backticks(text):
    """Pages speak of names between backticks; there every name of a definition is respelled."""
    name = re.compile(r"[A-Za-z0-9]+(-[A-Za-z0-9]+)+")
    return re.sub(
        r"`([^`\n]+)`",
        lambda found: "`" + (found.group(1).replace("-", "_") if name.fullmatch(found.group(1)) and found.group(1) in PAGES else found.group(1)) + "`",
        text,
    )


code = [f for part in ("specs", "proofs", "src") for f in glob.glob(f"crates/*/{part}/**/*.*t", recursive=True)]
texts = {f: open(f).read() for f in code}
declared = {name for f, text in texts.items() if f.endswith(".antt") for name in DECLARED.findall(text)}
PAGES = set(NAMES) | {name.replace("_", "-") for name in declared}

together = collections.defaultdict(set)
for name in declared:
    together[name.replace("-", "_") if name in NAMES else name].add(name)
clashes = [sorted(names) for names in together.values() if len(names) > 1]
if clashes:
    sys.exit(f"spell: these names fall together: {clashes}")

for f, text in texts.items():
    if respelled(text) != text:
        open(f, "w").write(respelled(text))
for f in ["README.md", *glob.glob("docs/*.md")]:
    text = open(f).read()
    if in_backticks(text) != text:
        open(f, "w").write(in_backticks(text))
