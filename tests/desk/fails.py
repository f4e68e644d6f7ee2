"""Tests that have to fail, each for another reason, by which tests/desk/browser --tried shows that page.py tells it."""


def test_an_assertion(page):
    assert page.run('return 1') == 2


def test_an_element_that_is_not_there(page):
    page.click('#nothing-of-this-name')


def test_something_that_never_comes(page):
    page.wait(lambda: False, seconds=0.2)


def test_an_error_on_the_console(page):
    page.run('console.error("told")')


def test_an_error_that_nothing_catches(page):
    page.run('setTimeout(() => { throw new Error("told"); }, 0)')


def test_a_promise_that_nothing_catches(page):
    page.run('setTimeout(() => { Promise.reject(new Error("told")); }, 0)')


def test_an_error_in_a_worker(page):
    page.run('new Worker(URL.createObjectURL(new Blob(["throw new Error(1)"])))')
    page.run('return new Promise((done) => setTimeout(done, 500))')


def test_a_request(page):
    page.run('return fetch("https://example.org/").catch(() => 0)')


def test_a_picture_from_elsewhere(page):
    page.run('document.body.append(Object.assign(new Image(), { src: "https://example.org/a.png" }))')
    page.run('return new Promise((done) => setTimeout(done, 500))')
