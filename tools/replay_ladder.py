"""The ladder of tools/replay-capture: what ours answered beside what the captured host did, and where it answered otherwise."""

from __future__ import annotations

import bisect
import difflib
from typing import Dict, Iterable, Iterator, List, NamedTuple, Optional, Sequence, Set, Tuple

from host import Drop
from replay_packets import ACK, ALL, FIN, MOST_LACKING, RST, SYN, URG, is_after, nearest
from replay_talks import HOST, LONGEST_WAIT, MILLISECOND, PEER, Said, Talk, key_of, text_of

# Marks: the same; the same in other segments, or told by another one; otherwise; and perhaps the same, where the capture ends too early to tell.
SAME, ELSEWHERE, OTHERWISE, UNKNOWN = " ", "~", "!", "?"
FLAGS = "FSRPAUEC"
# What of a segment's flags is compared. PSH follows from how octets are cut, ECE and CWR are an extension.
COMPARED = FIN | SYN | RST | ACK | URG
MOST_COLUMNS = 64


class Answer:
    """Something that a side said to a peer: a frame, or segments that follow one another and are taken as one."""

    def __init__(self, said: Said, is_strict: bool) -> None:
        self.said, self.talk, self.segment = said, said.talk, said.segment
        self.moment, self.place = said.moment, said.place
        self.mark = SAME
        self.twin: Optional[Answer] = None
        self.count = 1
        if self.segment is None:
            self.key: Tuple[object, ...] = key_of(said.frame, said.whole, is_strict)
            return
        segment = self.segment
        self.flags, self.data, self.acknowledged = segment.flags, segment.data, segment.acknowledged
        self.window, self.options = segment.window, segment.options
        self.key = self._key_of_segment(is_strict)

    def _key_of_segment(self, is_strict: bool) -> Tuple[object, ...]:
        assert self.segment is not None
        acknowledged = self.acknowledged if self.flags & ACK else 0
        if is_strict:
            return self.flags, self.segment.number, acknowledged, self.data, self.window, self.options
        return self.flags & COMPARED, self.segment.number, acknowledged, self.data

    def join(self, other: Answer) -> bool:
        """Takes the segment behind this one in, where its octets or its FIN follow, or where both only acknowledge, and that one more."""
        mine, theirs = self.segment, other.segment
        if mine is None or theirs is None or (self.flags | other.flags) & (SYN | RST) or self.flags & FIN:
            return False
        if (mine.number + len(self.data)) % ALL != theirs.number or bool(self.data) != bool(theirs.data or theirs.flags & FIN):
            return False
        if not self.data and not is_after(theirs.acknowledged, self.acknowledged):
            return False
        self.flags |= other.flags
        self.data += theirs.data
        self.acknowledged, self.window = theirs.acknowledged, theirs.window
        self.count += 1
        self.key = self._key_of_segment(False)
        return True

    @property
    def span(self) -> int:
        """How many sequence numbers it takes."""
        return len(self.data) + bool(self.flags & SYN) + bool(self.flags & FIN)


class Part(NamedTuple):
    """Where octets begin, and these; where new ones end, which come again, what is acknowledged, and whether it says nothing but what was said, as a
    duplicate ACK."""

    begin: int
    data: bytes
    end: Optional[int]
    again: Optional[Tuple[int, int]]
    acknowledged: Optional[int]
    is_repeated: bool


class Told:
    """What a side has told its peer in a connection: positions are counted from its SYN, which is 0, without wrapping."""

    def __init__(self, first: int, peer_first: int) -> None:
        self.first, self.peer_first = first, peer_first
        self.end = self.acknowledged = 0
        self.window = -1
        self.octets = bytearray(1)  # in the place of the SYN stands a 0
        self.again: List[Tuple[int, int]] = []
        self.has_reset = False

    def take(self, answer: Answer) -> Part:
        """What an answer tells that none before it did, and what it tells again."""
        segment = answer.segment
        assert segment is not None
        begin = nearest(segment.number - self.first, self.end)
        end = begin + answer.span
        again = (begin, min(end, self.end)) if begin < self.end and end > begin else None
        part = Part(begin, answer.data, end if end > self.end else None, again, None, False)
        self._keep(part)
        if segment.flags & ACK:
            acknowledged = nearest(answer.acknowledged - self.peer_first, self.acknowledged)
            is_new = acknowledged > self.acknowledged
            part = part._replace(acknowledged=acknowledged, is_repeated=not is_new and end == begin and answer.window == self.window)
            self.acknowledged = max(acknowledged, self.acknowledged)
        if again is not None:
            self.again.append(again)
        self.end, self.window = max(end, self.end), answer.window
        return part

    def _keep(self, part: Part) -> None:
        """Keeps octets at their place; those that the capture lacks are 0."""
        if part.data and 0 < part.begin <= len(self.octets) + MOST_LACKING:
            self.octets.extend(bytes(max(0, part.begin - len(self.octets))))
            self.octets[part.begin : part.begin + len(part.data)] = part.data

    def has(self, part: Part) -> bool:
        """Whether all of that was told from here too, be it in other segments. Who resets a connection owes no acknowledgement any more."""
        if part.is_repeated or part.end is not None and part.end > self.end:
            return False
        if part.acknowledged is not None and part.acknowledged > self.acknowledged and not self.has_reset:
            return False
        if self.octets[max(0, part.begin) : part.begin + len(part.data)] != part.data:
            return False
        return part.again is None or self._came_again(*part.again)

    def _came_again(self, begin: int, end: int) -> bool:
        for first, last in sorted(self.again):
            if first <= begin:
                begin = max(begin, last)
        return begin >= end


def answers_of(all_said: Iterable[Said], is_strict: bool) -> Dict[Talk, List[Answer]]:
    """What a side answered in each conversation. Segments that follow one another, with no frame of the peer between, are one answer, unless `is_strict`."""
    found: Dict[Talk, List[Answer]] = {}
    may_join: Dict[Talk, bool] = {}
    for said in all_said:
        if said.side == PEER:
            may_join[said.talk] = False
        elif said.whole is not None or said.datagram is None:
            answers, answer = found.setdefault(said.talk, []), Answer(said, is_strict)
            if is_strict or not may_join.get(said.talk) or not answers[-1].join(answer):
                answers.append(answer)
            may_join[said.talk] = True
    return found


def compare(talk: Talk, captured: List[Answer], ours: List[Answer], is_strict: bool) -> None:
    """Marks the answers of one conversation, and pairs those that are the same."""
    matcher = difflib.SequenceMatcher(None, [it.key for it in captured], [it.key for it in ours], autojunk=False)
    for answer in captured + ours:
        answer.mark = OTHERWISE
    for block in matcher.get_matching_blocks():
        for mine, theirs in zip(captured[block.a : block.a + block.size], ours[block.b : block.b + block.size]):
            mine.twin, mine.mark, theirs.mark = theirs, SAME, SAME
            theirs.twin = mine
    if talk.kind == "tcp" and not is_strict:
        _excuse(talk, captured, ours)


def _excuse(talk: Talk, captured: List[Answer], ours: List[Answer]) -> None:
    """Finds which segments say nothing else than those of the other side, though these are cut or acknowledge otherwise."""
    sides = [(Told(talk.first.get(HOST, 0), talk.first.get(PEER, 0)), answers) for answers in (captured, ours)]
    parts = [[(it, told.take(it)) for it in answers if not it.flags & RST] for told, answers in sides]
    for told, answers in sides:
        told.has_reset = any(it.flags & RST for it in answers)
    for mine, (other, _) in zip(parts, reversed(sides)):
        for answer, part in mine:
            if answer.mark == OTHERWISE and not answer.flags & SYN and other.has(part):
                answer.mark = ELSEWHERE


class Row(NamedTuple):
    """A line of the ladder: what a peer sent, or what each host answered."""

    moment: int
    talk: Talk
    peer: str
    captured: str
    mark: str
    ours: str


class Ladder:
    """The rows of a replay: `said` is what the capture has, `answers` what ours said, `drops` why it dropped a frame. In one that `is_strict` windows,
    options and all flags are compared too, and how octets are cut into segments."""

    def __init__(self, said: List[Said], answers: List[Said], drops: Dict[int, Drop], is_strict: bool, is_absolute: bool) -> None:
        self._is_strict, self._is_absolute, self._drops = is_strict, is_absolute, drops
        peers = [it for it in said if it.side == PEER]
        captured = answers_of(said, is_strict)
        ours = answers_of(sorted(peers + answers, key=lambda it: (it.place, it.side != PEER)), is_strict)
        for talk in {**captured, **ours}:
            compare(talk, captured.get(talk, []), ours.get(talk, []), is_strict)
        told = [it for answers in captured.values() for it in answers]
        self._last_of_host = max((it.place for it in said if it.side == HOST), default=-1)
        self._last = said[-1]
        extra = [it for answers in ours.values() for it in answers if it.twin is None and not self._is_late(it)]
        self._set_side_by_side(peers, told, extra)
        self.heard = len(peers)
        self.rows = self._make_rows(peers, told, [it for it in extra if it.twin is None])

    def _is_late(self, answer: Answer) -> bool:
        """Whether ours says something when the capture has ended. What does not make good for something that was lacking then is left out, and one at its end
        has a mark of its own: nobody knows what else the captured host said."""
        if answer.mark == ELSEWHERE:
            return False
        if answer.place >= self._last_of_host and answer.moment > self._last.moment - LONGEST_WAIT * MILLISECOND:
            answer.mark = UNKNOWN
        return answer.place > self._last.place

    def count(self, mark: str) -> int:
        """How many rows have a mark, of those that have answers."""
        return sum(row.mark == mark and not row.peer for row in self.rows)

    def _set_side_by_side(self, peers: List[Said], told: List[Answer], extra: List[Answer]) -> None:
        """Where both hosts answered otherwise between the same frames of the peer, these stand in one row."""
        heard: Dict[Talk, List[int]] = {}
        for said in peers:
            heard.setdefault(said.talk, []).append(said.place)

        def where(answer: Answer) -> Tuple[Talk, int, bool]:
            return answer.talk, bisect.bisect_right(heard.get(answer.talk, []), answer.place), answer.mark == ELSEWHERE

        waiting: Dict[Tuple[Talk, int, bool], List[Answer]] = {}
        for answer in extra:
            waiting.setdefault(where(answer), []).append(answer)
        for answer in told:
            beside = waiting.get(where(answer))
            if answer.twin is None and beside:
                answer.twin, beside[0].twin = beside[0], answer
                del beside[0]

    def _make_rows(self, peers: List[Said], told: List[Answer], extra: List[Answer]) -> List[Row]:
        placed: List[Tuple[int, int, int, Row]] = []
        for said in peers:
            drop = self._drops.get(said.place)
            text = "" if drop is None else f"drop F{drop.value} {drop.name}"
            placed.append((said.place, 0, 0, Row(said.moment, said.talk, self._text(Answer(said, True), PEER), "", SAME, text)))
        for answer in told:
            ours = "" if answer.twin is None else self._text(answer.twin, HOST)
            placed.append((answer.place, 1, 0, Row(answer.moment, answer.talk, "", self._text(answer, HOST), answer.mark, ours)))
        for number, answer in enumerate(extra):
            placed.append((answer.place, 2, number, Row(answer.moment, answer.talk, "", "", answer.mark, self._text(answer, HOST))))
        return [row for *_, row in sorted(placed, key=lambda it: it[:3])]

    def _text(self, answer: Answer, side: str) -> str:
        """What an answer says, in the words of docs/FORMATS.md."""
        segment, talk = answer.segment, answer.talk
        if segment is None:
            return text_of(answer.said.frame, answer.said.datagram, answer.said.whole)
        words = ["".join(name for bit, name in enumerate(FLAGS) if answer.flags >> bit & 1) or "-", "seq", self._number(segment.number, talk, side)]
        if answer.flags & ACK:
            words += ["ack", self._number(answer.acknowledged, talk, HOST if side == PEER else PEER)]
        if self._is_strict:
            words += ["win", str(answer.window)]
        if answer.data:
            words += ["data", str(len(answer.data))]
        if answer.count > 1:
            words += ["in", str(answer.count)]
        if self._is_strict and answer.options:
            words += ["options", answer.options.hex()]
        return " ".join(words)

    def _number(self, number: int, talk: Talk, side: str) -> str:
        """A number relative to the SYN of its direction; behind a `=` where there is none."""
        if self._is_absolute:
            return str(number)
        if side not in talk.first:
            return f"={number}"
        position = (number - talk.first[side]) % ALL
        return str(-1 if position == ALL - 1 else position)  # a probe of a silent peer may stand below the SYN


def lines_of(rows: Sequence[Row], host: str, around: Optional[int]) -> Iterator[str]:
    """The ladder as text: the moments in seconds since the first, and of each conversation its number. With `around` only what is so near to a
    difference."""
    shown = list(range(len(rows)))
    if around is not None:
        near = {at for mid, row in enumerate(rows) if row.mark == OTHERWISE for at in range(mid - around, mid + around + 1)}
        shown = [at for at in shown if at in near]
    heads = "the peer sent", f"{host} answered", "ours answered"
    wide = [min(MOST_COLUMNS, max([len(head)] + [len(texts) for texts in column])) for head, column in zip(heads, _columns(rows))]
    yield f"{'seconds':>12}      {_cell(heads[0], wide[0])}  {_cell(heads[1], wide[1])}    {heads[2]}"
    numbers = {talk: number + 1 for number, talk in enumerate(dict.fromkeys(row.talk for row in rows))}
    named: Set[Talk] = set()
    last = -1
    for at in shown:
        row = rows[at]
        if at != last + 1:
            yield f"{'..':>12}"
        last = at
        if row.talk not in named:
            named.add(row.talk)
            yield f"{'':12} {numbers[row.talk]:>3} = {row.talk.name_of(host)}"
        moment = (row.moment - rows[0].moment) / 1_000_000_000
        cells = f"{_cell(row.peer, wide[0])}  {_cell(row.captured, wide[1])}"
        yield f"{moment:12.6f} {numbers[row.talk]:>3}  {cells} {row.mark}  {_cell(row.ours, wide[2])}".rstrip()


def _columns(rows: Sequence[Row]) -> Iterator[List[str]]:
    for name in ("peer", "captured", "ours"):
        yield [getattr(row, name) for row in rows]


def _cell(text: str, wide: int) -> str:
    """A cell of a row: what is too long is cut, and its last two are `..`."""
    return (text if len(text) <= wide else text[: wide - 2] + "..").ljust(wide)
