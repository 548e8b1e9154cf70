"""Encodes a film in whose pictures their numbers stand, a damaged one, and a long stream."""
from cupdaisy import processes

# The film has four scenes and a period each 60 pictures, in which frame_num, of 4 bits, wraps. In each picture stands its number,
# from 0: eight squares in the lowest rows, the lowest bit on the left, light where it is 1.
PICTURES, PERIOD, WIDTH, HEIGHT, BITS, ROWS = 240, 60, 256, 144, 8, 16
SCENES = (("mandelbrot=start_scale=2:end_scale=0.05:end_pts=90", 70),
          ("gradients=speed=0.02:n=5:seed=7:c0=0x103070:c1=0xe07020:c2=0x20a090:c3=0xf0e0a0:c4=0x702080", 60),
          ("mandelbrot=start_x=-0.7436:start_y=-0.1318:start_scale=0.03:end_scale=0.002:end_pts=60", 50), ("testsrc2=duration=60", 60))
FILM = "--profile high --bframes 1 --b-adapt 0 --ref 2 --scenecut 0 --crf 22"
LONG = "--profile main --preset ultrafast --bframes 2 --scenecut 0 --crf 38"
MANY = 20_000


def filters():
    """ffmpeg's filters that join the scenes and write the numbers."""
    cuts = "".join(f"[{index}]trim=end_frame={pictures},setpts=PTS-STARTPTS,format=yuv420p[s{index}];"
                   for index, (_, pictures) in enumerate(SCENES))
    joined = "".join(f"[s{index}]" for index in range(len(SCENES))) + f"concat=n={len(SCENES)}"
    number = f"16+219*mod(floor(N/pow(2,floor(X*{BITS}/W))),2)"
    planes = [f"{name}='if(lt(Y,H-{rows}),{sample}(X,Y),{squares})'"
              for name, sample, rows, squares in (("lum", "lum", ROWS, number), ("cb", "cb", ROWS // 2, 128), ("cr", "cr", ROWS // 2, 128))]
    return f"{cuts}{joined},geq={':'.join(planes)}"


def encoded(file, sources, settings, period, pictures, joined=None):
    """Encodes what these sources of ffmpeg's draw."""
    drawn = ["ffmpeg", "-v", "error", *(word for source in sources for word in ("-f", "lavfi", "-i", source))]
    drawn += ["-filter_complex", joined] if joined else []
    drawn += ["-frames:v", str(pictures), "-pix_fmt", "yuv420p", "-f", "yuv4mpegpipe", "-"]
    command = f"x264 --quiet --demuxer y4m {settings} --keyint {period} --min-keyint {period} --threads 1 -o {file} -".split()
    if not processes.piped(drawn, command)[0]:
        raise RuntimeError(f"{file} can't be encoded")


def encode(folder):
    """The film, one that is damaged, and a long stream."""
    sources = [f"{name}{':' if '=' in name else '='}size={WIDTH}x{HEIGHT}:rate=25" for name, _ in SCENES]
    encoded(folder / "film.264", sources, FILM, PERIOD, PICTURES, filters())
    text = (folder / "film.264").read_bytes()
    (folder / "damaged.264").write_bytes(text + b"\0\0\1\x0d\x80")    # a unit of a type that isn't read
    encoded(folder / "long.264", ["testsrc2=size=64x48:rate=25"], LONG, 50, MANY)
