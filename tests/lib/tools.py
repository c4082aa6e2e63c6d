"""Real callers: srt-live-transmit, ffmpeg and GStreamer, if they are installed."""
import shutil
import socket
import subprocess
import threading
import time

from machine import free_port

SRT = "srt-live-transmit"
FFMPEG = "ffmpeg"
GSTREAMER = "gst-launch-1.0"
INSPECT = "gst-inspect-1.0"


def has(tool):
    """Whether a tool is installed; GStreamer with its elements for SRT."""
    if shutil.which(tool) is None:
        return False
    if tool != GSTREAMER:
        return True
    quiet = dict(stdin=subprocess.DEVNULL, stdout=subprocess.DEVNULL, stderr=subprocess.DEVNULL)
    return shutil.which(INSPECT) is not None and all(subprocess.run([INSPECT, "--exists", it], **quiet).returncode == 0 for it in ("srtsrc", "srtsink"))


class Tool:
    """A process whose standard output and standard error are kept."""

    def __init__(self, words, fed=False):
        self.process = subprocess.Popen(words, stdin=subprocess.PIPE if fed else subprocess.DEVNULL, stdout=subprocess.PIPE, stderr=subprocess.PIPE)
        self.output, self.text = bytearray(), bytearray()
        self.readers = [self.reader(self.process.stdout, self.output), self.reader(self.process.stderr, self.text)]

    def reader(self, pipe, kept):
        thread = threading.Thread(target=self.drain, args=(pipe, kept), daemon=True)
        thread.start()
        return thread

    def drain(self, pipe, kept):
        while True:
            piece = pipe.read1(65536)
            if not piece:
                break
            kept.extend(piece)

    def feed(self, contents):
        """Writes to the standard input, and leaves it open."""
        self.process.stdin.write(contents)
        self.process.stdin.flush()

    def errors(self):
        return self.text.decode(errors="replace")

    def wait_output(self, length, seconds):
        """Waits until `length` bytes came out, for at most `seconds`. Returns whether they did."""
        until = time.monotonic() + seconds
        while time.monotonic() < until and len(self.output) < length and self.process.poll() is None:
            time.sleep(0.01)
        return len(self.output) >= length

    def wait_errors(self, text, seconds):
        """Waits until standard error contains a text, for at most `seconds`. Returns whether it does."""
        until = time.monotonic() + seconds
        while time.monotonic() < until and text not in self.errors():
            time.sleep(0.01)
        return text in self.errors()

    def ended(self, seconds):
        """Waits until the process ends by itself, for at most `seconds`. Returns whether it did."""
        try:
            self.process.wait(seconds)
            return True
        except subprocess.TimeoutExpired:
            return False

    def end(self, seconds=5):
        """Ends the process if it still runs, and returns its status."""
        if self.process.stdin is not None:
            try:
                self.process.stdin.close()
            except OSError:
                pass
        if self.process.poll() is None:
            self.process.terminate()
        try:
            status = self.process.wait(seconds)
        except subprocess.TimeoutExpired:
            self.process.kill()
            status = self.process.wait()
        for reader in self.readers:
            reader.join(2)
        return status

    def __enter__(self):
        return self

    def __exit__(self, *why):
        self.end()


class Inlet:
    """A UDP socket that sends payloads to a tool, one in each datagram."""

    def __init__(self):
        self.port = free_port()
        self.address = f"udp://127.0.0.1:{self.port}"
        self.socket = socket.socket(socket.AF_INET, socket.SOCK_DGRAM)

    def feed(self, payloads, interval):
        """Sends payloads, one every `interval` seconds."""
        due = time.monotonic()
        for one in payloads:
            self.socket.sendto(one, ("127.0.0.1", self.port))
            due += interval
            time.sleep(max(0, due - time.monotonic()))


class Outlet(threading.Thread):
    """A UDP socket to which a tool sends its payloads. `got` has each with the moment when it came, in microseconds."""

    def __init__(self):
        super().__init__(daemon=True)
        self.socket = socket.socket(socket.AF_INET, socket.SOCK_DGRAM)
        self.socket.setsockopt(socket.SOL_SOCKET, socket.SO_RCVBUF, 1 << 22)
        self.socket.bind(("127.0.0.1", 0))
        self.address = f"udp://127.0.0.1:{self.socket.getsockname()[1]}"
        self.got = []
        self.start()

    def run(self):
        while True:
            self.got.append((self.socket.recv(2048), time.monotonic_ns() // 1000))

    def wait(self, seconds, count):
        """Waits until `count` payloads came, for at most `seconds`. Returns whether they did."""
        until = time.monotonic() + seconds
        while time.monotonic() < until and len(self.got) < count:
            time.sleep(0.005)
        return len(self.got) >= count


def transmit(source, sink, fed=False):
    """An srt-live-transmit that forwards from one address to another."""
    return Tool([SRT, "-chunk:1316", source, sink], fed)


def gstreamer(*elements):
    """A GStreamer pipeline of these elements, each a list of words."""
    words = [word for it in elements for word in ("!", *it)]
    return Tool([GSTREAMER, "-q", *words[1:]])


def srt(address, **options):
    """The gateway's address in the form that srt-live-transmit and ffmpeg take."""
    host, port = address
    return f"srt://{f'[{host}]' if ':' in host else host}:{port}?" + "&".join(f"{key}={value}" for key, value in options.items())


def srt_from(source, address, **options):
    """The same for an srt-live-transmit that calls from this address of the machine. Without its mode it would be no caller."""
    return srt(address, mode="caller", adapter=source, **options)
