"""What tools/whole does, for the scripts in Python: a file that is the old one or the new one, and nothing between."""
import os, sys


def write(path, text):
    """The text becomes the file: it is written beside, reaches the disk, and is moved into place."""
    beside = '%s.%d' % (path, os.getpid())
    try:
        with open(beside, 'w', encoding='utf-8') as file:
            file.write(text)
            file.flush()
            os.fsync(file.fileno())
        os.replace(beside, path)
    except OSError as why:
        sys.stderr.write('%s: cannot write %s: %s\n' % (os.path.basename(sys.argv[0]), path, why.strerror))
        sys.exit(2)
    finally:
        if os.path.exists(beside):
            os.unlink(beside)
