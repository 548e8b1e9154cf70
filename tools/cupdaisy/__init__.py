"""What the commands of tools/ do, a module for each, named after it, and what they share:

    workspace       the repository's top, its crates, their sources, and the toolchain's folder
    program         the program `preview` that the tools run
    processes       commands that are run: how they end, what they print, and what they take
    command_line    options, and programs that aren't installed
    streams         byte streams: NAL units, access units, and refusals
    syntax          parameter sets and slice headers, read bit by bit
    traces          the same as ffmpeg's trace_headers prints them
    headers         what slice headers say of marking, lists and frames
    forms           the digest forms of controls
    stand_in        the stand-in's pictures of a trace
    fold            the plain fold over access units
    session         the plain session over a stream under edits
    scripts         scripts that run on one, and the lines that answer them
    serve_model     what `preview serve` answers
    kernel_structs  the structs of the kernel's header, and records of requests made of them
    kernel_guest    a guest of qemu with Debian's kernel and its virtual decoder
    kernel_trace    what that kernel's trace has of requests
    kernel_jobs     runs of the example host in the guest, and what the kernel was told by them
    frame_places    where a driver puts frames that it numbers by the entries of the buffer
    kernel_spoils   the same with spoiled controls
    decode_stream   the program bench/decode_stream, built where it is missing
    damage          damaged copies of streams
    mending         what `preview mend` writes of a text and tells
    doubts          which units of a plan are in doubt
    film            films in whose pictures their numbers stand
    browser         headless Chromium under a driver
    editor_scripts  scripts that are run in the page of examples/editor

Python 3.10 with its standard library is all that they need; CONTRIBUTING.md names the programs that some commands run.
"""
