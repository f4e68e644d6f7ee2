"""The part Board in a browser: what it reads, skips and holds, beside a small computation from the header's words."""
import base64
import random
import re

ADVISED, OPTIONAL = 0x41, 0x40
STEPS = """
return [...document.querySelectorAll('#board-strip button')].map((button) => [
    button.getAttribute('aria-label'), button.getAttribute('aria-pressed')]);
"""
ROWS = """
return [...document.querySelectorAll('#board-rows tr')].map((row) => [...row.children].map((cell) => cell.textContent));
"""


def plan(*entries):
    """A plan file."""
    return b'CBP\0\1' + bytes([len(entries)]) + b''.join(entries)


def sent(serial, identifier, parameter=0x11):
    """The entry of a page."""
    return bytes([2]) + serial.to_bytes(2, 'big') + identifier.to_bytes(2, 'big') + bytes([parameter])


def page_of(entry):
    """What two slots with the same page have in common; nothing of a slot without one."""
    zero = entry[5] >> 4 == 0 or entry[5] & 15 == 0
    return entry[:5] + (b'\x11' if zero else entry[5:]) if entry[0] == 2 else None


def told_of(entries):
    """What a schedule tells of each slot that is told as planned."""
    pages = [page_of(entry) for entry in entries]
    told = []
    for place, entry in enumerate(entries):
        if entry[0] != 2:
            told.append(ADVISED if entry[0] == 1 else OPTIONAL)
        elif pages.index(pages[place]) < place:
            told.append(pages.index(pages[place]) + 1)
        else:
            told.append(0x8000 | int.from_bytes(entry[3:5], 'big'))
    return told


def reads(told, slot, wanted, held):
    """Whether a board reads a slot; with no schedule, nothing is told."""
    if slot > len(told) or told[slot - 1] == ADVISED:
        return True
    code = told[slot - 1]
    if code == OPTIONAL or code < 0x8000 and code in held:
        return False
    first = code if code >= 0x8000 else told[code - 1]
    return any(one % 0x8000 == first % 0x8000 for one in wanted)


def period(told, entries, wanted, lost):
    """Whether each of the 48 slots is read, and the slots whose pages are held then."""
    held, steps = set(), []
    for slot in range(1, 49):
        read = reads(told, slot, wanted, held)
        if read and slot not in lost and slot <= len(entries) and entries[slot - 1][0] == 2:
            repeat = slot <= len(told) and told[slot - 1] < OPTIONAL
            held.add(told[slot - 1] if repeat else slot)
        steps.append((read, sorted(held)))
    return steps


def listed(slots):
    """Slots as a text has them, with a dash for those between."""
    parts = [part.split('–') for part in slots.split(', ') if part]
    return [slot for part in parts for slot in range(int(part[0]), int(part[-1]) + 1)]


def start(page, entries, previous=(), **typed):
    """Opens the board beside plans."""
    plans = [base64.urlsafe_b64encode(plan(*slots)).decode().rstrip('=') for slots in (entries, previous)]
    more = ''.join(f'&{name}={value}' for name, value in typed.items())
    page.open('#part=board&current={}&previous={}'.format(*plans) + more)
    page.wait(lambda: page.find('#board-strip button').is_displayed(), 'the strip')


def holds(page, told, entries, wanted, lost):
    """Holds all that is shown to the computation."""
    steps = period(told, entries, wanted, lost)
    shown = page.run(STEPS)
    for slot, ((read, held), (label, pressed)) in enumerate(zip(steps, shown), 1):
        assert label.startswith(f'Slot {slot}: ') and ('; skipped;' not in label) == read, (label, read)
        assert label.endswith(f'; holds {len(held)}') and pressed == str(slot in lost).lower(), (label, held)
    for head, _, _, does, outcome, slots in page.run(ROWS):
        first, last = (head.split('–') * 2)[:2]
        for slot in range(int(first), int(last) + 1):
            read, held = steps[slot - 1]
            assert does == ('reads' if read else 'skips') and listed(slots) == held, (head, does, slots, held)
            assert (outcome == '✗ lost') == (read and slot in lost), (head, outcome)
    size = len(told) or 48
    count = sum(read for read, _ in steps[:size])
    words = page.text('#board-summary')
    assert words.startswith(f'The board reads {count} of {size} slot') and f' and skips {size - count}' in words, words
    held = re.search(r'It holds in the end the pages? of slots? ([\d, –]+)\.$', words)
    assert listed(held.group(1) if held else '') == steps[-1][1], words


FIVE = [sent(0x10, 0x1111), b'\1' + bytes(5), sent(0x20, 0x2222), sent(0x10, 0x1111), bytes(6)]
BEFORE = [sent(0x20, 0x2222)]


def test_losses_by_click(page):
    start(page, FIVE, BEFORE)
    told = told_of(FIVE)
    page.fill('#board-wanted', '1111')
    holds(page, told, FIVE, [0x1111], [])
    page.click('#board-strip button:nth-child(1)')
    holds(page, told, FIVE, [0x1111], [1])
    assert page.run(ROWS)[3][4] == 'got, held as slot 1'
    page.click('#board-strip button:nth-child(4)')
    assert page.value('#board-lost') == '1,4'
    holds(page, told, FIVE, [0x1111], [1, 4])
    page.click('#board-strip button:nth-child(1)')
    holds(page, told, FIVE, [0x1111], [4])
    page.click('#board-hear')
    holds(page, told, FIVE, [0x1111], [])


def test_losses_by_keyboard(page):
    start(page, FIVE, BEFORE, wanted='1111,2222')
    told, wanted = told_of(FIVE), [0x1111, 0x2222]
    page.press('#board-strip button', 'ARROW_RIGHT', 'ARROW_RIGHT', ' ')
    holds(page, told, FIVE, wanted, [3])
    page.press(None, 'HOME', ' ')
    holds(page, told, FIVE, wanted, [1, 3])
    page.press(None, 'ARROW_RIGHT', 'ARROW_RIGHT', ' ', 'END', ' ')
    holds(page, told, FIVE, wanted, [1, 48])
    page.press(None, 'ARROW_RIGHT', 'ARROW_LEFT', ' ')
    holds(page, told, FIVE, wanted, [1, 47, 48])
    page.size(1280, 900)
    page.press(None, 'ARROW_UP', ' ')
    holds(page, told, FIVE, wanted, [1, 23, 47, 48])
    page.press(None, 'ARROW_DOWN', ' ', 'ARROW_DOWN')
    holds(page, told, FIVE, wanted, [1, 23, 48])
    assert page.run('return document.querySelectorAll("#board-strip [tabindex=\'0\']").length') == 1


def test_any_plan_beside_the_computation(page):
    draw = random.Random(21)
    kinds = [bytes(6), b'\1' + bytes(5)]
    for _ in range(12):
        pages = [sent(draw.randrange(4), draw.choice([1, 0x8001, 0x32, 0xF0E1]), draw.choice([0x11, 0, 0x12]))
                 for _ in range(9)]
        entries = [draw.choice(kinds + pages * 2) for _ in range(draw.randrange(1, 49))]
        wanted = draw.sample([1, 0x8001, 0x32, 0x70E1, 0xF0E1], draw.randrange(4))
        lost = sorted(draw.sample(range(1, 49), draw.randrange(20)))
        start(page, entries, wanted='+'.join(f'{one:x}' for one in wanted), lost=','.join(map(str, lost)))
        holds(page, told_of(entries), entries, wanted, lost)
        page.find('#board-obeys option[value=none]').click()
        holds(page, [], entries, wanted, lost)


def test_a_message_chosen_in_check(page):
    start(page, FIVE, BEFORE, wanted='2222')
    page.find('#board-obeys option[value=chosen]').click()
    assert page.text('#board-schedule') == 'No message is chosen in Check: the board knows no schedule.'
    holds(page, [], FIVE, [0x2222], [])
    # slot 4 is told as a repeat of slot 3, whose page it isn't, and the message ends before slot 5
    octets = bytes([1, 4, 0xD0, 0, 0, 0, 0, 0, 0x91, 0x11, 0x41, 0x03, 0xA2, 0x22]).ljust(88, b'\x2b')
    page.click('#tab-check')
    page.drop('#check-drop', 'untrue.msg', octets)
    page.wait(lambda: 'untrue.msg' in page.text('#check-title'), 'the message')
    page.click('#tab-board')
    told = [0x9111, ADVISED, 0xA222, 3]
    assert page.text('#board-schedule') == 'The board obeys untrue.msg.'
    holds(page, told, FIVE, [0x2222], [])
    page.click('#board-strip button:nth-child(3)')
    holds(page, told, FIVE, [0x2222], [3])
    assert page.run(ROWS)[3][4] == 'got, held as slot 3'
    page.click('#tab-check')
    page.drop('#check-drop', 'refused.msg', b'\x41' + octets[1:])
    page.wait(lambda: 'refused.msg' in page.text('#check-title'), 'the message')
    page.click('#tab-board')
    assert 'Refused by 20: ' in page.text('#board-schedule') and 'tells the board nothing' in page.text('#board-schedule')
    holds(page, [], FIVE, [0x2222], [3])


def test_plans_of_which_none_is_written(page):
    start(page, FIVE[:1] + [b'\7' + bytes(5)], BEFORE)
    assert 'Refused by 36: the current plan: entry 2: ' in page.text('#board-schedule')
    holds(page, [], [], [], [])
    start(page, FIVE, BEFORE, begin='9')
    assert 'Refused by 21: ' in page.text('#board-schedule')
    holds(page, [], FIVE, [], [])


def test_what_is_typed_wrong(page):
    start(page, FIVE, BEFORE, wanted='1111')
    told = told_of(FIVE)
    many = [0x1111] + list(range(0x3000, 0x3040))
    page.run('arguments[0].value = arguments[1]; arguments[0].dispatchEvent(new Event("input"))', page.find('#board-wanted'),
             ' '.join(f'{one:04X}' for one in many[1:]))
    assert page.text('#board-said') == ''
    holds(page, told, FIVE, many[1:], [])
    page.run('arguments[0].value = arguments[1]; arguments[0].dispatchEvent(new Event("input"))', page.find('#board-wanted'),
             ' '.join(f'{one:04X}' for one in many))
    assert page.text('#board-said').startswith('Refused by 42: ')
    holds(page, told, FIVE, many[1:], [])
    for typed, words in [('22222', '“22222” is not an identifier of one to four hex digits.'), ('xy', '“xy” is not')]:
        page.fill('#board-wanted', typed)
        assert words in page.text('#board-said') and page.find('#board-wanted').get_attribute('aria-invalid') == 'true'
    page.fill('#board-wanted', ' 1111,, 2222 ')
    assert page.text('#board-said') == ''
    for typed, words in [('49', 'Refused by 41: slot 49: '), ('0', 'Refused by 41: slot 0: '), ('1 b', '“b” is not')]:
        page.fill('#board-lost', '3')
        page.fill('#board-lost', typed)
        assert words in page.text('#board-said'), page.text('#board-said')
    page.fill('#board-lost', '1 3')
    holds(page, told, FIVE, [0x1111, 0x2222], [1, 3])


def test_the_address_keeps_what_is_typed(page):
    start(page, FIVE, BEFORE)
    page.fill('#board-wanted', '1111 2222')
    page.click('#board-strip button:nth-child(3)')
    page.wait(lambda: 'lost=3' in page.address() and 'wanted=1111' in page.address(), 'the address')
    page.open(page.address())
    page.wait(lambda: page.value('#board-wanted') == '1111 2222', 'the page anew')
    holds(page, told_of(FIVE), FIVE, [0x1111, 0x2222], [3])


def test_nothing_is_lost_where_it_is_narrow(page):
    entries = [sent(n % 20, 0x32 + n % 3) for n in range(46)] + FIVE[:2]
    start(page, entries, wanted='32+33', lost='2,3,40')
    page.fits('board')
