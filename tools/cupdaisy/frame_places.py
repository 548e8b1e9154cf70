"""Which place a driver gives each frame that numbers frames by the valid entries of the decoded picture buffer."""

PLACES = 18


def clashes(requests):
    """How many requests name two frames that have one place. A request is the surface that is decoded into, the surfaces that are
    found by the entries' times, and those that its lists name.

    This is what cedrus does (drivers/staging/media/sunxi/cedrus/cedrus_h264.c, cedrus_write_frame_list): a new frame gets the
    first place that no frame has which is found, so a frame that isn't found loses its place.
    """
    places, count = {}, 0
    for surface, found, named in requests:
        count += len({places[each] for each in named}) < len(named)
        used = {places[each] for each in found}
        places[surface] = next(place for place in range(PLACES) if place not in used)
    return count
