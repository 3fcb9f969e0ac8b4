"""What outside.py and plate.py share: a DDS file of blocks, the decoders of other people, and what they read beside ours."""

import struct

SHOWN = 3  # differing pixels shown of each decoder


def dds(blocks, width, height):
    """A DDS file of blocks, row by row, for a picture of any size, with the DX10 header and DXGI format 98 (BC7)."""
    form = struct.pack("<2I4s5I", 32, 4, b"DX10", 0, 0, 0, 0, 0)
    header = struct.pack("<7I44x32s5I", 124, 0x81007, height, width, 16 * len(blocks), 0, 1, form, 0x1000, 0, 0, 0, 0)
    return b"DDS " + header + struct.pack("<5I", 98, 3, 0, 1, 0) + b"".join(blocks)


def pillow(path):
    """Pillow's version and what it reads."""
    import PIL
    from PIL import Image

    with Image.open(path) as image:
        return PIL.__version__, image.convert("RGBA").tobytes()


def openimageio(path):
    """OpenImageIO's version and what it reads; its channels come as parts of 1."""
    import OpenImageIO

    image = OpenImageIO.ImageBuf(path)
    if not image.read() or image.has_error:
        raise OSError(image.geterror())
    width, height = image.spec().width, image.spec().height
    pixels = (image.getpixel(x, y) for y in range(height) for x in range(width))
    return OpenImageIO.VERSION_STRING, bytes(round(255 * channel) for pixel in pixels for channel in pixel)


DECODERS = (("Pillow", "python3-pil", pillow), ("OpenImageIO", "python3-openimageio", openimageio))


def show(name, blocks, width, at, ours, theirs):
    """Prints one differing pixel with its block."""
    row, column = divmod(at, width)
    block = blocks[row // 4 * ((width + 3) // 4) + column // 4]
    pixel = row % 4 * 4 + column % 4
    print(f"differs: {name}: block {block.hex(' ')} pixel {pixel}: ours {list(ours)}, theirs {list(theirs)}")


def differing(name, blocks, width, ours, theirs):
    """How many pixels differ; the first of them are shown. A picture of another size differs everywhere."""
    count = len(ours) // 4
    if len(ours) != len(theirs):
        return count
    places = [at for at in range(count) if ours[4 * at : 4 * at + 4] != theirs[4 * at : 4 * at + 4]] if ours != theirs else []
    for at in places[:SHOWN]:
        show(name, blocks, width, at, ours[4 * at : 4 * at + 4], theirs[4 * at : 4 * at + 4])
    return len(places)


def decoded(name, package, decode, path):
    """A decoder's version and pixels, or None with a line that says why."""
    try:
        return decode(path)
    except ImportError as error:
        print(f"{name} is missing ({error}): install Debian's package {package}")
    except Exception as error:
        print(f"{name} does not read the file: {error}")
    return None


def compared(path, blocks, width, height, ours):
    """Writes the DDS file and compares each decoder's pixels (red, green, blue, alpha) with ours: how many read it, and differ."""
    with open(path, "wb") as file:
        file.write(dds(blocks, width, height))
    decoders, differ = 0, 0
    for name, package, decode in DECODERS:
        answer = decoded(name, package, decode, path)
        if answer is not None:
            version, theirs = answer
            apart = differing(name, blocks, width, ours, theirs)
            print(f"{name} {version}: {len(blocks)} blocks, {width * height} pixels compared, {apart} differ")
            decoders, differ = decoders + 1, differ + apart
    return decoders, differ


def ended(pixels, decoders, differ):
    """Prints the last line, and answers the exit status."""
    print(f"{pixels} pixels compared with {decoders} decoders, {differ} differ")
    return 0 if decoders == len(DECODERS) and differ == 0 else 1
