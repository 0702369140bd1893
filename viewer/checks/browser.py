"""A headless Chromium over its debugging pipe: no driver and no socket is needed. Speaks the DevTools protocol."""
import base64
import json
import os
import select
import shutil
import subprocess
import tempfile
import time

NAMES = ('chromium', 'chromium-browser', 'google-chrome')
WORDS = ('--headless=new', '--no-sandbox', '--disable-gpu', '--no-first-run', '--disable-extensions',
         '--disable-background-networking', '--disable-component-update', '--force-color-profile=srgb',
         '--font-render-hinting=none')


class NoBrowser(Exception):
    """No Chromium is there."""


class Browser:
    def __init__(self):
        found = next(filter(None, map(shutil.which, NAMES)), None)
        if not found:
            raise NoBrowser
        self.folder = tempfile.TemporaryDirectory(ignore_cleanup_errors=True)
        to_read, self.write_end = os.pipe()
        self.read_end, to_write = os.pipe()

        def ends():
            """The pipe's ends are the descriptors 3 and 4 of the browser."""
            os.dup2(to_read, 103)
            os.dup2(to_write, 104)
            os.dup2(103, 3)
            os.dup2(104, 4)
        self.process = subprocess.Popen(
            [found, *WORDS, '--user-data-dir=' + self.folder.name, '--remote-debugging-pipe', 'about:blank'],
            preexec_fn=ends, close_fds=False, stdout=subprocess.DEVNULL, stderr=subprocess.DEVNULL)
        os.close(to_read)
        os.close(to_write)
        self.number, self.left, self.told, self.session = 0, b'', [], None
        target = self.send('Target.createTarget', url='about:blank')['targetId']
        self.session = self.send('Target.attachToTarget', targetId=target, flatten=True)['sessionId']
        for name in ('Page', 'Runtime', 'DOM', 'Network', 'Log', 'Accessibility'):
            self.send(name + '.enable')
        self.send('Performance.enable', timeDomain='threadTicks')

    def send(self, method, **params):
        """Asks for something, and gives its result; whatever else is told meanwhile is kept."""
        self.number += 1
        message = {'id': self.number, 'method': method, 'params': params}
        if self.session:
            message['sessionId'] = self.session
        os.write(self.write_end, json.dumps(message).encode() + b'\0')
        end = time.time() + 120
        while time.time() < end:
            while b'\0' in self.left:
                one, self.left = self.left.split(b'\0', 1)
                told = json.loads(one)
                if told.get('id') != self.number:
                    self.told.append(told)
                elif 'error' in told:
                    raise RuntimeError(method + ': ' + told['error']['message'])
                else:
                    return told['result']
            if select.select([self.read_end], [], [], 1)[0]:
                self.left += os.read(self.read_end, 1 << 20)
        raise TimeoutError(method)

    def run(self, code):
        """The value of some JavaScript, waited for where it is a promise."""
        result = self.send('Runtime.evaluate', expression=code, awaitPromise=True, returnByValue=True)
        if 'exceptionDetails' in result:
            raise RuntimeError(result['exceptionDetails'].get('exception', {}).get('description', '?'))
        return result['result'].get('value')

    def worked(self):
        """How long the page has had the processor since it was opened, in milliseconds."""
        told = self.send('Performance.getMetrics')['metrics']
        return next(each['value'] for each in told if each['name'] == 'TaskDuration') * 1000

    def size(self, wide, tall, dark=False):
        self.send('Emulation.setDeviceMetricsOverride', width=wide, height=tall, deviceScaleFactor=1, mobile=False)
        scheme = 'dark' if dark else 'light'
        self.send('Emulation.setEmulatedMedia', media='', features=[{'name': 'prefers-color-scheme', 'value': scheme}])

    def wait(self, code, seconds=60):
        end = time.time() + seconds
        while time.time() < end:
            if self.run(code):
                return
            time.sleep(0.05)
        raise TimeoutError(code)

    def begin(self, url):
        self.send('Page.navigate', url=url)
        self.wait("document.readyState === 'complete' && typeof page !== 'undefined'")

    def open(self, url, files):
        """Opens the page and gives it files by its field."""
        self.begin(url)
        root = self.send('DOM.getDocument')['root']['nodeId']
        field = self.send('DOM.querySelector', nodeId=root, selector='#file')['nodeId']
        self.send('DOM.setFileInputFiles', files=[str(file) for file in files], nodeId=field)
        self.wait("document.body.dataset.ready === 'yes'")
        self.settle()

    def drop(self, url, files):
        """Opens the page and drops files on it."""
        self.begin(url)
        data = {'items': [], 'files': [str(file) for file in files], 'dragOperationsMask': 1}
        for kind in ('dragEnter', 'dragOver', 'drop'):
            self.send('Input.dispatchDragEvent', type=kind, x=300, y=300, data=data)
        self.wait("document.body.dataset.ready === 'yes'")

    def key(self, key, **more):
        for kind in ('keyDown', 'keyUp'):
            self.send('Input.dispatchKeyEvent', type=kind, key=key, **more)

    def press(self, x, y):
        for kind in ('mousePressed', 'mouseReleased'):
            self.send('Input.dispatchMouseEvent', type=kind, x=x, y=y, button='left', buttons=1, clickCount=1)

    def touch(self, *steps):
        """Fingers: each step is the list of their places; the last one lifts them."""
        kinds = ['touchStart'] + ['touchMove'] * (len(steps) - 1)
        for kind, places in zip(kinds, steps):
            points = [{'x': x, 'y': y, 'id': k} for k, (x, y) in enumerate(places)]
            self.send('Input.dispatchTouchEvent', type=kind, touchPoints=points)
        self.send('Input.dispatchTouchEvent', type='touchEnd', touchPoints=[])

    def settle(self):
        self.run('new Promise(done => requestAnimationFrame(() => requestAnimationFrame(done)))')

    def picture(self, path):
        """The whole page as a picture."""
        self.settle()
        image = self.send('Page.captureScreenshot', format='png', captureBeyondViewport=True)['data']
        with open(path, 'wb') as file:
            file.write(base64.b64decode(image))

    def paper(self, path):
        sheet = self.send('Page.printToPDF', preferCSSPageSize=True, printBackground=True)['data']
        with open(path, 'wb') as file:
            file.write(base64.b64decode(sheet))

    def close(self):
        try:
            self.send('Browser.close')
        except (RuntimeError, OSError, TimeoutError):
            pass
        self.process.wait(10)
        self.folder.cleanup()
