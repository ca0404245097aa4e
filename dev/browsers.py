"""Headless browsers for the tests of the page with the simulator: Chromium by its remote protocol, Firefox by WebDriver BiDi,
both over a web socket (python3-websockets). Each has `open`, `value`, `click`, `press`, `type`, `picture`, `close`.
"""
import asyncio
import base64
import contextlib
import json
import os
import re
import shutil
import subprocess
import threading
import time
from collections.abc import Callable

CHROMIUM = next((it for it in map(shutil.which, ('chromium', 'chromium-browser', 'google-chrome')) if it), None)
FIREFOX = next((it for it in map(shutil.which, ('firefox-esr', 'firefox')) if it), None)
# How long a browser may take to start, a command to be answered, and a page to be loaded, in seconds. Now and then a browser of
# either kind loads nothing of a page: it is asked that often.
START, ANSWER, LOAD, TRIES = 120, 300, 60, 4


class Gone(Exception):
    """The browser does not answer, or a script in it failed."""


class Wire:
    """A web socket, used from this thread: a command and its answer; what else comes is kept as an event."""

    def __init__(self, address):
        self._loop = asyncio.new_event_loop()
        threading.Thread(target=self._loop.run_forever, daemon=True).start()
        self._count, self.events = 0, []
        self.silent = False
        self._socket = self._wait(self._connect(address), START)

    @staticmethod
    async def _connect(address):
        import websockets
        return await websockets.connect(  # type: ignore[attr-defined]     # which it imports when it is asked for
            address, max_size=None, open_timeout=START, ping_interval=None)

    def _wait(self, task, seconds):
        """What a task gives; after `seconds` it is ended, so that the next command reads its own answer."""
        try:
            return asyncio.run_coroutine_threadsafe(asyncio.wait_for(task, seconds), self._loop).result()
        except asyncio.TimeoutError:
            raise Gone(f'the browser gives no answer in {seconds} seconds') from None

    async def _ask(self, message):
        await self._socket.send(json.dumps(message))
        while True:
            answer = json.loads(await self._socket.recv())
            if answer.get('id') == message['id']:
                return answer
            self.events.append(answer)
            if answer.get('method') == 'Page.javascriptDialogOpening':      # whether to leave the page: a test means to
                await self._socket.send(json.dumps({'id': 0, 'method': 'Page.handleJavaScriptDialog', 'params': {'accept': True},
                                                    'sessionId': answer['sessionId']}))

    def ask(self, message, seconds=ANSWER):
        """Sends a command; answers its answer."""
        self._count += 1
        try:
            return self._wait(self._ask({**message, 'id': self._count}), seconds)
        except Gone:
            self.silent = self.silent or seconds == ANSWER
            raise

    def close(self):
        """Closes the socket."""
        try:
            self._wait(self._socket.close(), 10)
        except Exception:       # it is gone already
            pass
        self._loop.call_soon_threadsafe(self._loop.stop)


class Browser:
    """What both have in common: a process with a profile of its own, and the address that it says. Each has its `value`."""

    value: Callable[..., str]
    navigate: Callable[[str], None]

    def __init__(self, words, folder, said, environment=None):
        self.log = open(os.path.join(folder, 'browser.log'), 'w+', encoding='utf-8', errors='replace')
        self.process = subprocess.Popen(words, stdin=subprocess.DEVNULL, stdout=self.log, stderr=self.log,
                                        env={**os.environ, 'HOME': folder, **(environment or {})})
        self.wire: Wire | None = None
        until = time.monotonic() + START
        while time.monotonic() < until:
            with open(self.log.name, encoding='utf-8', errors='replace') as file:
                found = re.search(said + r' (ws://\S+)', file.read())
            if found:
                self.address = found.group(1)
                return
            if self.process.poll() is not None:
                break
            time.sleep(.1)
        self.close()
        raise Gone('the browser does not start')

    def json(self, script):
        """What a script's expression gives, as JSON."""
        return json.loads(self.value(f'Promise.resolve({script}).then(it => JSON.stringify(it === undefined ? null : it))'))

    def wait(self, script, seconds=120):
        """Waits until an expression is true; answers it."""
        until = time.monotonic() + seconds
        while time.monotonic() < until:
            found = self.value(script)
            if found:
                return found
            time.sleep(.1)
        raise Gone(f'it does not become true: {script}')

    def open(self, address):
        """Opens a page, and waits until it is loaded."""
        for _ in range(TRIES):
            with contextlib.suppress(Gone):
                self.navigate('about:blank')
                self.wait_loaded('location.href === "about:blank"')
                self.navigate(address)
                self.wait_loaded('location.href !== "about:blank"')
                return
        raise Gone('the page is not loaded')

    def reload(self):
        """Loads the page anew, as the key F5 does; where it asks, whoever uses it wants to leave."""
        self.value('(window.loaded = 1) && setTimeout(() => location.reload(), 0)')
        self.wait_loaded('!window.loaded')

    def wait_loaded(self, which):
        """Waits until the page is loaded of which an expression is true. What is asked between two pages may have no answer."""
        until = time.monotonic() + LOAD
        while time.monotonic() < until:
            with contextlib.suppress(Gone):
                if self.value(f'{which} && document.readyState === "complete"', 10):
                    return
            time.sleep(.1)
        raise Gone('the page is not loaded')

    @property
    def silent(self):
        """Whether a command had no answer."""
        return self.wire is not None and self.wire.silent

    def middle(self, script):
        """The middle of an element, brought into view."""
        return self.json(f'(() => {{ const e = {script}; e.scrollIntoView({{block: "nearest"}}); const b = e.getBoundingClientRect(); '
                         'return [Math.round(b.x + b.width / 2), Math.round(b.y + b.height / 2)]; })()')

    def close(self):
        """Ends it."""
        if self.wire:
            self.wire.close()
        self.process.terminate()
        try:
            self.process.wait(timeout=10)
        except subprocess.TimeoutExpired:
            self.process.kill()
            self.process.wait()
        self.log.close()


class Chromium(Browser):
    """Headless Chromium. `before` is a script that runs before a page's own."""

    def __init__(self, folder, before=None, flags=(), environment=None):
        super().__init__([CHROMIUM, '--headless=new', '--no-sandbox', '--disable-gpu', '--remote-debugging-port=0', '--hide-scrollbars',
                          '--no-first-run', '--disable-dev-shm-usage', f'--user-data-dir={folder}/profile', *flags, 'about:blank'],
                         folder, 'DevTools listening on', environment)
        self.wire: Wire = Wire(self.address)
        self.session = None
        target = self.call('Target.createTarget', url='about:blank')['targetId']
        self.session = self.call('Target.attachToTarget', targetId=target, flatten=True)['sessionId']
        self.call('Page.enable')
        self.call('Runtime.enable')
        if before:
            self.call('Page.addScriptToEvaluateOnNewDocument', source=before)
        self.size(1280, 800)

    def call(self, method, seconds=ANSWER, **given):
        message = {'method': method, 'params': given}
        if self.session:
            message['sessionId'] = self.session
        answer = self.wire.ask(message, seconds)
        if 'error' in answer:
            raise Gone(answer['error'])
        return answer['result']

    def size(self, width, height, mobile=False):
        """The size of what is seen."""
        self.call('Emulation.setDeviceMetricsOverride', width=width, height=height, deviceScaleFactor=1, mobile=mobile)

    def navigate(self, address):
        """Begins to load a page; one that would ask whether to leave it is not asked, since it keeps the answer back."""
        self.value('window.onbeforeunload = null', 10)
        self.call('Page.navigate', LOAD, url=address)

    def value(self, script, seconds=ANSWER):
        answer = self.call('Runtime.evaluate', seconds, expression=script, awaitPromise=True, returnByValue=True,
                           allowUnsafeEvalBlockedByCSP=False)
        if 'exceptionDetails' in answer:
            raise Gone(json.dumps(answer['exceptionDetails'])[:800])
        return answer['result'].get('value')

    def click(self, script):
        """Clicks at the middle of the element that the script names."""
        x, y = self.middle(script)
        for what in ('mousePressed', 'mouseReleased'):
            self.call('Input.dispatchMouseEvent', type=what, x=x, y=y, button='left', clickCount=1)

    def mouse(self, what, x, y):
        """Moves the mouse to a place, with its button as it is; `what` is moved, pressed or released."""
        self.held = what == 'pressed' or what == 'moved' and getattr(self, 'held', False)
        self.call('Input.dispatchMouseEvent', type=f'mouse{what.capitalize()}', x=x, y=y, button='left' if self.held or what == 'released' else 'none',
                  buttons=int(self.held), clickCount=int(what != 'moved'))

    def press(self, key, modifiers=0):
        """Presses a key; `modifiers` is 1 with Alt, 2 with Ctrl, 8 with Shift."""
        codes = {'Enter': 13, 'Backspace': 8, 'Delete': 46, 'End': 35, 'Home': 36, 'Tab': 9, 'Escape': 27, 'ArrowLeft': 37, 'ArrowUp': 38,
                 'ArrowRight': 39, 'ArrowDown': 40, 'PageUp': 33, 'PageDown': 34, ' ': 32}
        more = {'text': '\r' if key == 'Enter' else key} if (len(key) == 1 or key == 'Enter') and not modifiers else {}
        code = {'windowsVirtualKeyCode': codes[key]} if key in codes else {}
        self.call('Input.dispatchKeyEvent', type='keyDown', key=key, modifiers=modifiers, code=key, **more, **code)
        self.call('Input.dispatchKeyEvent', type='keyUp', key=key, modifiers=modifiers, code=key, **code)

    def type(self, text):
        """Types a text."""
        self.call('Input.insertText', text=text)

    def picture(self, path):
        """A picture of what is seen, as PNG."""
        with open(path, 'wb') as file:
            file.write(base64.b64decode(self.call('Page.captureScreenshot', format='png')['data']))

    def longest_task(self, script):
        """What a script answers, and of the page's own thread the longest task meanwhile: its seconds, and those that it took of a processor."""
        session, self.session = self.session, None
        self.call('Tracing.start', traceConfig={'includedCategories': ['toplevel'], 'excludedCategories': ['*']}, transferMode='ReportEvents')
        self.session = session
        answer = self.json(script)
        self.session = None
        self.wire.events.clear()
        self.call('Tracing.end')
        seen: list[dict] = []
        while not any(it['method'] == 'Tracing.tracingComplete' for it in seen):
            self.call('Browser.getVersion')     # events come with the answer to a command
            seen += self.wire.events
            self.wire.events.clear()
        self.session = session
        events = [it for one in seen if one['method'] == 'Tracing.dataCollected' for it in one['params']['value']]
        own = {(it['pid'], it['tid']) for it in events if it['name'] == 'thread_name' and it['args']['name'] == 'CrRendererMain'}
        tasks = [it for it in events if it['ph'] == 'X' and it['name'].endswith('RunTask') and (it['pid'], it['tid']) in own]
        return answer, max(it['dur'] for it in tasks) / 1e6, max(it.get('tdur', 0) for it in tasks) / 1e6


class Firefox(Browser):
    """Headless Firefox, by WebDriver BiDi."""

    def __init__(self, folder, before=None, preferences=()):
        profile = os.path.join(folder, 'profile')
        os.makedirs(profile)
        with open(os.path.join(profile, 'user.js'), 'w', encoding='utf-8') as file:
            for name, value in {'datareporting.policy.dataSubmissionEnabled': False, 'app.update.enabled': False,
                                'browser.shell.checkDefaultBrowser': False, 'remote.active-protocols': 1,
                                'security.sandbox.content.level': 0, **dict(preferences)}.items():
                file.write(f'user_pref({json.dumps(name)}, {json.dumps(value)});\n')
        super().__init__([FIREFOX, '--headless', '--no-remote', '--profile', profile, '--remote-debugging-port=0', 'about:blank'],
                         folder, 'WebDriver BiDi listening on', {'MOZ_DISABLE_CONTENT_SANDBOX': '1'})
        self.wire: Wire = Wire(self.address + '/session')
        self.call('session.new', capabilities={'alwaysMatch': {'unhandledPromptBehavior': {'beforeUnload': 'accept'}}})
        self.context = self.call('browsingContext.getTree')['contexts'][0]['context']
        if before:
            self.call('script.addPreloadScript', functionDeclaration=f'() => {{ {before} }}')
        self.size(1280, 800)

    def call(self, method, seconds=ANSWER, **given):
        answer = self.wire.ask({'method': method, 'params': given}, seconds)
        if answer.get('type') == 'error':
            raise Gone(f'{answer["error"]}: {answer["message"]}'[:800])
        return answer['result']

    def size(self, width, height, mobile=False):
        """The size of what is seen."""
        self.call('browsingContext.setViewport', context=self.context, viewport={'width': width, 'height': height})

    def navigate(self, address):
        """Begins to load a page."""
        self.call('browsingContext.navigate', LOAD, context=self.context, url=address, wait='none')

    def value(self, script, seconds=ANSWER):
        answer = self.call('script.evaluate', seconds, expression=script, target={'context': self.context}, awaitPromise=True)
        if answer['type'] == 'exception':
            raise Gone(answer['exceptionDetails']['text'][:800])
        return answer['result'].get('value')

    def _act(self, kind, actions, **more):
        self.call('input.performActions', context=self.context, actions=[{'type': kind, 'id': kind, 'actions': actions, **more}])

    def click(self, script):
        """Clicks at the middle of the element that the script names."""
        x, y = self.middle(script)
        self._act('pointer', [{'type': 'pointerMove', 'x': x, 'y': y}, {'type': 'pointerDown', 'button': 0},
                              {'type': 'pointerUp', 'button': 0}], parameters={'pointerType': 'mouse'})

    def mouse(self, what, x, y):
        """Moves the mouse to a place, with its button as it is; `what` is moved, pressed or released."""
        button = {'pressed': 'pointerDown', 'released': 'pointerUp'}.get(what)
        self._act('pointer', [{'type': 'pointerMove', 'x': int(x), 'y': int(y)}, *([{'type': button, 'button': 0}] if button else [])],
                  parameters={'pointerType': 'mouse'})

    def press(self, key, modifiers=0):
        """Presses a key; `modifiers` is 1 with Alt, 2 with Ctrl, 8 with Shift."""
        value = {'Enter': '\ue007', 'Backspace': '\ue003', 'Delete': '\ue017', 'End': '\ue010', 'Home': '\ue011', 'Tab': '\ue004',
                 'Escape': '\ue00c', 'ArrowRight': '\ue014', 'ArrowLeft': '\ue012', 'ArrowUp': '\ue013', 'ArrowDown': '\ue015',
                 'PageUp': '\ue00e', 'PageDown': '\ue00f'}.get(key, key)
        pair = [{'type': 'keyDown', 'value': value}, {'type': 'keyUp', 'value': value}]
        held = {1: '\ue00a', 8: '\ue008'}.get(modifiers, '\ue009')
        self._act('key', [{'type': 'keyDown', 'value': held}, *pair, {'type': 'keyUp', 'value': held}] if modifiers else pair)

    def type(self, text):
        """Types a text."""
        self._act('key', [{'type': what, 'value': letter} for letter in text for what in ('keyDown', 'keyUp')])

    def picture(self, path):
        """A picture of what is seen, as PNG."""
        with open(path, 'wb') as file:
            file.write(base64.b64decode(self.call('browsingContext.captureScreenshot', context=self.context)['data']))
