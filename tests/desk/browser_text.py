"""The part Text in a browser: what is typed, what is refused where, the panel, the octets, and the files."""
from programs import written

GATE = {'serial': '0010', 'identifier': '8001'}
# docs/FORMATS.md, section 5
GATE_BLOCK = bytes.fromhex('30 00 10 80 01 00 11 C7 30 BD 0C 9A 35 1A 8D 46 A3 D1 68 34 1A 8D 46')


def ready(page):
    """Waits until the desk is started."""
    page.wait(lambda: page.all('#tabs [aria-selected=true]'), 'the desk')


def start(page, text=None, **fields):
    """The part with a text pasted and fields filled."""
    ready(page)
    page.click('#tab-text')
    for name, value in fields.items():
        page.fill(f'#text-{name}', value)
    if text is not None:
        page.paste('#text-typed', text)


def panel(page):
    """The cells of the panel, and how many of them are of the text."""
    cells = page.run(
        "return Array.from(document.querySelectorAll('#text-panel span'), (cell) => [cell.textContent, cell.className])")
    assert len(cells) == 93
    return [cell for cell, _ in cells], sum(name != 'text-blank' for _, name in cells)


def saved(page, name):
    """The page and the blocks as files."""
    page.click('#text-save-page')
    octets = page.download(f'{name}.page')
    page.click('#text-save-blocks')
    blocks = page.download(f'{name}.blocks')
    assert len(octets) == 88 and len(blocks) == 92
    assert octets == b''.join(blocks[place + 1:place + 23] for place in range(0, 92, 23))
    return octets, blocks


def completing(blocks):
    """The number of the block that completes the page, by what cblist lists."""
    return [line.split()[0] for line in written('cblist', blocks).decode().splitlines() if line.split()[1] == '0'][0]


def marks(page):
    """What is listed as not to be written."""
    return [button.text for button in page.all('#text-list button')]


def test_a_typed_text_is_written_and_read_back(page):
    start(page, **GATE)
    page.press('#text-typed', *'Gate 3')
    assert page.text('#text-room') == 'Room for 87 more plain characters.'
    assert panel(page) == (list('Gate 3' + ' ' * 87), 6)
    assert page.text('#text-count') == '6 characters, then 87 blank cells.'
    assert page.text('#text-used') == 'The page: 12 of its 88 octets used'
    assert 'serial number 0010, message identifier 8001, coding scheme 00, page 1 of 1' in page.text('#text-header')
    used = page.text('#text-octets .text-head') + page.text('#text-octets .text-used')
    assert bytes.fromhex(used) == GATE_BLOCK[1:13]
    assert bytes.fromhex(page.text('#text-blocks p')) == GATE_BLOCK
    octets, blocks = saved(page, 'page-0010-8001-1-of-1')
    assert blocks[:23] == GATE_BLOCK and bytes.fromhex(page.text('#text-octets')) == octets
    assert bytes.fromhex(page.text('#text-blocks')) == blocks
    assert written('cbtext', blocks) == b'1 0010 8001 1/1 text Gate 3\n'


def test_spaces_at_the_end_are_counted(page):
    start(page, 'Gate 3  ', **GATE)
    assert panel(page) == (list('Gate 3' + ' ' * 87), 8)
    assert page.text('#text-room') == 'Room for 85 more plain characters.'


def test_characters_of_the_extension_table(page):
    text = 'Ramp [3] {B} C:\\D ~ ^ | 5€ £¥Δ_Φ ñÑàÉ @§'
    pairs = sum(character in '^{}\\[~]|€' for character in text)
    start(page, text, serial='4a31', identifier='32', pageNumber='2', pageTotal='3')
    assert page.text('#text-room') == f'Room for {93 - len(text) - pairs} more plain characters.'
    assert panel(page) == (list(text.ljust(93)), len(text))
    assert not page.find('#text-bad').is_displayed()
    _, blocks = saved(page, 'page-4A31-0032-2-of-3')
    shown = text.replace('\\', '\\\\')
    assert written('cbtext', blocks).decode() == f'{completing(blocks)} 4A31 0032 2/3 text {shown}\n'


def test_line_feeds_form_feeds_and_returns(page):
    start(page, 'One\nTwo', **GATE)
    page.click('#text-feed')
    page.click('#text-return')
    page.press('#text-typed', '!')
    cells, length = panel(page)
    assert cells[:10] == ['O', 'n', 'e', 'LF', 'T', 'w', 'o', 'FF', 'CR', '!'] and length == 10
    assert page.text('#text-room') == 'Room for 82 more plain characters.'
    _, blocks = saved(page, 'page-0010-8001-1-of-1')
    assert written('cbtext', blocks) == b'1 0010 8001 1/1 text One\\nTwo\\f\\r!\n'


def test_what_is_not_in_the_alphabet_is_marked(page):
    start(page, 'a “quote” `b` \u00a0 😀!', **GATE)
    assert page.text('#text-refused') == 'Refused by 11: a character is in neither table of GSM 03.38.'
    named = ['“ U+201C at 3', '” U+201D at 9', '` U+0060 at 11', '` U+0060 at 13', 'U+00A0 U+00A0 at 15',
             '😀 U+1F600 at 17']
    assert marks(page) == named
    assert [mark.text for mark in page.all('#text-layer mark')] == ['“', '”', '`', '`', 'U+00A0', '😀']
    assert page.text('#text-room') == 'Room for 81 more plain characters, without what is marked.'
    assert page.find('#text-typed').get_attribute('aria-invalid') == 'true'
    assert not page.find('#text-shown').is_displayed() and not page.find('#text-made').is_displayed()
    # From the list, by keys, to the character.
    page.press('#text-list li:last-child button', 'ENTER')
    assert page.run('const at = document.activeElement; return at.value.slice(at.selectionStart, at.selectionEnd)') == '😀'
    page.press(None, 'DELETE')
    assert marks(page) == named[:-1]


def test_half_of_a_pair_is_marked_by_itself(page):
    start(page, **GATE)
    page.run("const typed = document.getElementById('text-typed');"
             "typed.value = 'a\\uD83Db'; typed.dispatchEvent(new Event('input'))")
    assert marks(page) == ['U+D83D U+D83D at 2']


def test_a_text_too_long(page):
    start(page, 'A' * 93, **GATE)
    assert page.text('#text-room') == 'The page is full.' and page.find('#text-made').is_displayed()
    page.press('#text-typed', 'END', 'x')
    assert page.text('#text-refused').endswith('Refused by 10: the text is over 93 septets long.')
    assert page.text('#text-room') == 'The first 93 characters fit; 1 more is over.'
    assert page.text('#text-layer .text-over') == 'x'
    assert not page.find('#text-made').is_displayed()
    page.fill('#text-typed', '')
    page.paste('#text-typed', '[' * 46 + 'A')
    assert page.text('#text-room') == 'The page is full.'
    page.fill('#text-typed', '')
    page.paste('#text-typed', '[' * 47)
    assert page.text('#text-room') == 'The first 46 characters fit; 1 more is over.'


def test_both_too_long_and_not_in_the_alphabet(page):
    start(page, '“' + 'A' * 95, **GATE)
    assert 'Refused by 11' in page.text('#text-refused')
    assert page.text('#text-room') == 'The first 94 characters fit, without what is marked; 2 more are over.'


def test_a_text_that_ends_in_cr(page):
    start(page, 'Gate', **GATE)
    page.click('#text-return')
    assert page.text('#text-refused').endswith('Refused by 12: the text ends in CR.')
    assert page.text('#text-room') == 'Room for 88 more plain characters.'
    assert not page.find('#text-bad').is_displayed()
    page.press('#text-typed', '3')
    assert page.text('#text-refused') == ''


def test_a_text_of_a_million_characters(page):
    start(page, 'Gate', **GATE)
    page.run("""
        document.addEventListener('copy', (event) => {
            event.clipboardData.setData('text/plain', window.copied);
            event.preventDefault();
        });
        let last = performance.now();
        setInterval(() => {
            window.gap = Math.max(window.gap, performance.now() - last);
            last = performance.now();
        }, 5);""")
    for unit in ['a', 'a\r\n', '😀']:
        page.run('window.copied = arguments[0].repeat(1e6 / arguments[0].length)', unit)
        page.press('#text-serial', 'CONTROL+c')
        page.press('#text-typed', 'CONTROL+a')
        page.run('window.gap = 0')
        page.press('#text-typed', 'CONTROL+v')
        page.wait(lambda: 'far too long' in page.text('#text-cut'), 'the sentence')
        assert page.value('#text-typed')[:3] == (unit * 3).replace('\r', '')[:3]
        assert page.run('return window.gap') < 500
    page.fill('#text-typed', 'Gate 3')
    assert page.text('#text-cut') == '' and page.find('#text-made').is_displayed()


def test_fields_of_the_header(page):
    start(page, 'Gate 3')
    assert page.find('#text-lacking').is_displayed() and page.find('#text-shown').is_displayed()
    for name, bad in [('serial', ['g', '12345', '']), ('identifier', ['0x1', '-1', ''])]:
        for value in bad:
            page.fill(f'#text-{name}', value)
            assert page.text(f'#text-{name}-said').endswith('One to four hex digits are needed.')
        page.fill(f'#text-{name}', 'fffe')
        assert page.text(f'#text-{name}-said') == ''
    assert page.find('#text-made').is_displayed()
    for scheme, said in [('10', 'Refused by 13: the coding scheme is above 0F.'), ('ff', 'Refused by 13'), ('0f', ''),
                         ('100', 'One or two hex digits are needed.'), ('', '')]:
        page.fill('#text-scheme', scheme)
        assert said in page.text('#text-scheme-said') and bool(said) == bool(page.text('#text-scheme-said'))
        assert page.find('#text-made').is_displayed() == (said == '')
        assert page.find('#text-scheme').get_attribute('aria-invalid') == str(said != '').lower()
    for number, total, said in [('0', '1', 'Refused by 14'), ('3', '2', 'Refused by 14'), ('16', '1', '15 at most'),
                                ('1', 'x', '15 at most'), ('15', '15', ''), ('', '', '')]:
        page.fill('#text-pageNumber', number)
        page.fill('#text-pageTotal', total)
        assert said in page.text('#text-page-said') and bool(said) == bool(page.text('#text-page-said'))
        assert page.find('#text-made').is_displayed() == (said == '')


def test_no_refusal_hides_another(page):
    start(page, 'A' * 94, serial='1', identifier='2', scheme='20', pageNumber='2')
    assert 'by 10' in page.text('#text-refused') and 'by 13' in page.text('#text-scheme-said')
    assert 'by 14' in page.text('#text-page-said')


def test_the_address_keeps_the_text(page):
    start(page, 'One\n[Two] & “', **GATE)
    page.click('#text-return')
    page.wait(lambda: 'text=' in page.address() and '%0D' in page.address(), 'the text in the address')
    page.open(page.address())
    ready(page)
    assert page.value('#text-typed') == 'One\n[Two] & “↵' and page.value('#text-serial') == '0010'
    assert marks(page) == ['“ U+201C at 13']
    page.open('#part=text&serial=1&identifier=2&text=' + 'A' * 2000)
    ready(page)
    assert 'far too long' in page.text('#text-cut') and len(page.value('#text-typed')) == 1000


def test_typing_is_answered_within_a_frame(page):
    start(page, **GATE)
    took = page.run("""
        const typed = document.getElementById('text-typed');
        const times = [];
        for (let length = 0; length < 100; length++) {
            typed.value = 'Aé[“x'.repeat(20).slice(0, length);
            const begun = performance.now();
            typed.dispatchEvent(new Event('input'));
            times.push(performance.now() - begun);
        }
        return times.sort((a, b) => a - b)[50];""")
    print(f'tests/desk: {page.browser}: text: an input of up to 100 characters is answered in {took:.1f} ms')
    assert took < 16


def test_nothing_is_lost_on_a_narrow_page(page):
    start(page, 'a “quote” ' * 12, serial='x', identifier='', scheme='20', pageNumber='2')
    page.size(360, 800)
    assert page.run('return document.documentElement.scrollWidth <= innerWidth')
    page.fill('#text-typed', 'Gate 3')
    for name, value in [('serial', '1'), ('identifier', '2'), ('scheme', '0'), ('pageNumber', '1')]:
        page.fill(f'#text-{name}', value)
    assert page.find('#text-made').is_displayed()
    assert page.run('return document.documentElement.scrollWidth <= innerWidth')
