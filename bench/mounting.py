"""Mounts volumes by bin/fsvol-mount, and other file systems beside them, for bench/mounted, bench/stressed and bench/kills. All of it needs root."""
import os
import subprocess
import sys
import time

sys.dont_write_bytecode = True
TOP = os.path.dirname(os.path.dirname(os.path.abspath(__file__)))
SECONDS = 30


def require():
    """Ends where the machine cannot mount."""
    if os.geteuid() != 0 or not os.path.exists('/dev/fuse') or not os.path.exists('/dev/loop-control'):
        raise SystemExit('this needs root, /dev/fuse and loop devices')


def run(words, **more):
    """Runs a command that has to be done."""
    return subprocess.run(words, check=True, stdin=subprocess.DEVNULL, stdout=subprocess.PIPE, stderr=subprocess.PIPE, timeout=600, **more)


def until(what, test):
    """Waits until a test holds."""
    for _ in range(SECONDS * 100):
        if test():
            return
        time.sleep(0.01)
    raise SystemExit('%s: not after %d seconds' % (what, SECONDS))


class Volume:
    """The volume of an image, mounted by bin/fsvol-mount until it is left."""

    def __init__(self, program, image, folder, words=(), preload=None):
        self.image, self.folder = image, folder
        more = {} if preload is None else {'LD_PRELOAD': preload}
        self.told = open(image + '.told', 'w+', encoding='utf-8')
        self.script = subprocess.Popen([os.path.join(TOP, 'bin', 'fsvol-mount'), image, folder, *words], stdin=subprocess.DEVNULL,
                                       stderr=self.told, env=dict(os.environ, FSVOL=program, **more))
        until('a mount', lambda: os.path.ismount(folder) or self.script.poll() is not None)
        if self.script.poll() is not None:
            raise SystemExit('%s is not mounted: %s' % (image, self.said()))
        os.statvfs(folder)

    def said(self):
        """What was told on standard error so far."""
        with open(self.image + '.told', encoding='utf-8') as told:
            return told.read()

    def server(self):
        """The number of the server's process."""
        with open('/proc/%d/task/%d/children' % (self.script.pid, self.script.pid), encoding='ascii') as children:
            for child in children.read().split():
                with open('/proc/%s/cmdline' % child, 'rb') as words:
                    if b'serve' in words.read().split(b'\0'):
                        return int(child)
        return None

    def killed(self):
        """Waits for the end of a server that was killed; it leaves no mount."""
        self.script.wait(SECONDS)
        until('the end of a mount', lambda: not is_mounted(self.folder))
        self.told.close()

    def leave(self):
        """Unmounts the volume, and gives the status of the server."""
        for _ in range(100):
            if subprocess.run(['umount', self.folder], stderr=subprocess.DEVNULL).returncode == 0:
                break
            time.sleep(0.05)
        status = self.script.wait(SECONDS)
        self.told.close()
        return status


class Kind:
    """A file system that is measured: `fsvol`, `fuse2fs`, or the kernel's own of this name, such as ext4. The last two have images of 256 MiB in
    the kernel's layout, with blocks of 1 KiB."""

    def __init__(self, name, program, folder, geometry, own):
        self.name, self.program, self.own, self.volume, self.child = name, program, own, None, None
        self.image, self.place = os.path.join(folder, 'image'), os.path.join(folder, 'place')
        os.makedirs(self.place)
        if name == 'fsvol':
            run([program, 'mkfs', self.image, *geometry])
        else:
            run(['truncate', '-s', '256M', self.image])
            run(['mkfs.' + own, '-q', '-b', '1024', '-N', '65536', self.image])

    def mount(self):
        if self.name == 'fsvol':
            self.volume = Volume(self.program, self.image, self.place)
        elif self.name == self.own:
            run(['mount', '-o', 'loop', '-t', self.own, self.image, self.place])
        else:
            self.child = subprocess.Popen(['fuse2fs', '-f', '-o', 'rw', self.image, self.place], stdin=subprocess.DEVNULL, stdout=subprocess.DEVNULL,
                                          stderr=subprocess.DEVNULL)
            until('fuse2fs', lambda: os.path.ismount(self.place))

    def leave(self):
        if self.volume:
            self.volume.leave()
        else:
            run(['umount', self.place])
            if self.child:
                self.child.wait(60)


def is_mounted(folder):
    """Whether something is mounted on a folder, also where nobody answers."""
    with open('/proc/self/mounts', encoding='utf-8') as mounts:
        return any(line.split(' ')[1] == os.path.abspath(folder) for line in mounts)


def clean_up(folder):
    """Unmounts all that is mounted in a folder; loop devices go with it."""
    with open('/proc/self/mounts', encoding='utf-8') as mounts:
        places = [line.split(' ')[1] for line in mounts]
    for place in reversed(places):
        if place.startswith(os.path.abspath(folder) + '/'):
            subprocess.run(['umount', '-l', place], stderr=subprocess.DEVNULL)
