"""Images that are written row by row in one file, each behind a line `--- image NAME`."""
from assembler import Image


def images_of(path):
    """The images of a file by their names, each as its bytes."""
    with open(path, encoding="utf-8") as file:
        parts = file.read().split("--- image ")[1:]
    images = {}
    for part in parts:
        name, _, body = part.partition("\n")
        image = Image()
        for line in body.split("\n"):
            if line and not line.startswith("#"):
                image.add(line)
        images[name] = image.bytes()
    return images
