/*
 * A host with twelve surfaces: a cursor jumps through a stream, and the pictures that it wants are decoded first, into the
 * surfaces that are wanted least.
 *     build/surfaces FILE
 * At each stop it wants the picture under the cursor and the next three in output order. It takes jobs for these alone. Where it
 * has no surface left, it takes back what edits let go, then what is cached, and then the picture that was touched longest ago. In
 * between it deletes units and puts them back.
 *
 * The decoder is a function: what a surface holds is computed from a job's bytes and from the surfaces that the job refers to. So
 * the example sees whether a position of the output order always shows the same content, as it has to.
 *
 * Exit status: 0; 1 with a message.
 */
#include "cupdaisy.hpp"
#include "file.h"

#include <algorithm>
#include <cstdio>
#include <cstdlib>
#include <map>

using cupdaisy::Bytes;

namespace {

const std::size_t AHEAD = 3;
const std::uint16_t CACHE = 2;

/* Its place is the number under which the session knows it. */
struct Surface {
    bool is_used = false; /* whether the session has it */
    std::uint64_t content = 0;
    std::uint64_t touched = 0; /* when it was last shown or referred to */
};

class Host {
public:
    explicit Host(const Bytes &text) : session(CACHE) { session.load(text); }

    /* Shows what is at a position of the output order, and decodes ahead. */
    void stop_at(std::size_t position);
    void delete_and_repair(std::size_t place);
    cupdaisy::Session session;

private:
    void take_back(cupdaisy::Surface number);
    bool drop(cupdaisy::Surface number);
    bool make_room(const std::vector<cupdaisy::Surface> &kept);
    bool find_unused(const std::vector<cupdaisy::Surface> &kept, cupdaisy::Surface &number);
    std::uint64_t content_of(std::uint64_t job, const std::vector<cupdaisy::Surface> &references);
    void decode(const cupdaisy_job &job);
    bool make_ready(std::uint32_t id);

    std::array<Surface, 12> surfaces;
    std::map<std::size_t, std::uint64_t> contents; /* of each position, as it was first shown */
    cupdaisy::Surface cursor = 12;                 /* what is on the screen; none at first */
    std::uint64_t clock = 0;
    unsigned decoded = 0;
    unsigned dropped = 0;
};

bool has(const std::vector<cupdaisy::Surface> &some, cupdaisy::Surface number)
{
    return std::find(some.begin(), some.end(), number) != some.end();
}

/* FNV-1a, in the place of a device's work. */
std::uint64_t mixed(std::uint64_t sum, const std::uint8_t *bytes, std::size_t count)
{
    for (std::size_t i = 0; i < count; i++)
        sum = (sum ^ bytes[i]) * 1099511628211u;
    return sum;
}

/* A surface is the host's again. */
void Host::take_back(cupdaisy::Surface number)
{
    if (!surfaces.at(number).is_used)
        throw std::runtime_error("a surface is given back that the session doesn't have");
    surfaces[number].is_used = false;
}

/* Takes back the surface of a picture that is held. Units that are made alike share it, so that one of them is enough. */
bool Host::drop(cupdaisy::Surface number)
{
    cupdaisy::Surface found = 0;
    for (std::size_t place = 0; place < session.units(); place++) {
        const std::uint32_t id = session.id_at(place);
        if (session.show(id, found) == CUPDAISY_DONE && found == number && session.drop(id, found)) {
            take_back(found);
            dropped++;
            return true;
        }
    }
    return false;
}

/* Takes surfaces back: those that edits let go, or one of the cache, or the one that was touched longest ago, but for those that are
 * kept. Whether there is one more. */
bool Host::make_room(const std::vector<cupdaisy::Surface> &kept)
{
    const std::vector<cupdaisy::Surface> released = session.released();
    for (cupdaisy::Surface number : released)
        take_back(number);
    cupdaisy::Surface number = 0;
    if (!released.empty())
        return true;
    if (session.uncache(number)) {
        take_back(number);
        return true;
    }
    cupdaisy::Surface oldest = surfaces.size();
    for (number = 0; number < surfaces.size(); number++)
        if (surfaces[number].is_used && !has(kept, number)
            && (oldest == surfaces.size() || surfaces[number].touched < surfaces[oldest].touched))
            oldest = number;
    return oldest < surfaces.size() && drop(oldest);
}

/* A surface to decode into, but for those that are kept; whether there is one. */
bool Host::find_unused(const std::vector<cupdaisy::Surface> &kept, cupdaisy::Surface &number)
{
    do {
        for (number = 0; number < surfaces.size(); number++)
            if (!surfaces[number].is_used && !has(kept, number))
                return true;
    } while (make_room(kept));
    return false;
}

/* What a job's picture holds. */
std::uint64_t Host::content_of(std::uint64_t job, const std::vector<cupdaisy::Surface> &references)
{
    std::uint64_t content = 14695981039346656037u;
    for (cupdaisy::Surface number : references) {
        Surface &surface = surfaces.at(number);
        surface.touched = ++clock;
        content = mixed(content, reinterpret_cast<const std::uint8_t *>(&surface.content), sizeof surface.content);
    }
    const std::uint64_t slices = session.input(job).slices;
    for (std::size_t slice = 0; slice < slices; slice++) {
        const Bytes text = session.bytes(job, slice);
        content = mixed(content, text.data(), text.size());
    }
    return content;
}

/* Decodes a job into a surface that it doesn't refer to and that isn't on the screen, and lands it. */
void Host::decode(const cupdaisy_job &job)
{
    std::vector<cupdaisy::Surface> kept = session.references(job.number);
    cupdaisy::Surface number = 0;
    const std::uint64_t content = content_of(job.number, kept);
    kept.push_back(cursor);
    if (!find_unused(kept, number))
        throw std::runtime_error("a job refers to more pictures than there are surfaces");
    Surface &surface = surfaces[number];
    surface.content = content;
    surface.touched = ++clock;
    surface.is_used = session.land(job.number, number);
    decoded++;
}

/* Whether the unit's picture lies in a surface, once what it needs is decoded. */
bool Host::make_ready(std::uint32_t id)
{
    cupdaisy::Surface number = 0;
    cupdaisy_job job;
    while (session.take_for(id, job))
        decode(job);
    return session.show(id, number) == CUPDAISY_DONE;
}

void Host::stop_at(std::size_t position)
{
    std::uint32_t id = 0;
    decoded = dropped = 0;
    if (!session.unit_at(position, id))
        return;
    if (!make_ready(id))
        throw std::runtime_error("a valid unit is not made ready");
    session.show(id, cursor);
    Surface &surface = surfaces.at(cursor);
    surface.touched = ++clock;
    if (!surface.is_used || contents.insert({position, surface.content}).first->second != surface.content)
        throw std::runtime_error("a position shows two contents");
    std::printf("position %lu unit %u surface %lu content %016llx", static_cast<unsigned long>(position),
                static_cast<unsigned>(id), static_cast<unsigned long>(cursor), static_cast<unsigned long long>(surface.content));
    for (std::size_t next = position + 1; next <= position + AHEAD; next++)
        if (session.unit_at(next, id))
            make_ready(id);
    std::printf(" decoded %u dropped %u\n", decoded, dropped);
}

/* Takes a unit out and puts its text back. A picture whose surface is still cached is shown again without being decoded. */
void Host::delete_and_repair(std::size_t place)
{
    /* A loaded unit's text is that of the edit that inserted it; ids and edits are counted alike. */
    const std::uint32_t id = session.id_at(place);
    const Bytes text = session.text(id - 1, 0);
    session.erase(id);
    session.insert_after(session.id_at(place - 1), text);
}

Bytes read(const char *path)
{
    std::size_t length = 0;
    std::uint8_t *text = whole_file(path, &length);
    if (text == nullptr)
        throw std::runtime_error(std::string("cannot read ") + path);
    Bytes bytes(text, text + length);
    std::free(text);
    return bytes;
}

void play(const Bytes &text)
{
    Host host(text);
    const std::size_t units = host.session.units();
    const std::array<std::size_t, 6> stops = {0, units / 2, units / 2 + 1, units - 1, 0, units / 3};
    for (std::size_t position : stops)
        host.stop_at(position);
    if (units > 2) {
        host.delete_and_repair(units / 2);
        std::printf("a unit deleted and put back\n");
        for (std::size_t position : stops)
            host.stop_at(position);
    }
}

}

int main(int count, char **words)
{
    if (count != 2) {
        std::fprintf(stderr, "usage: surfaces FILE\n");
        return 2;
    }
    try {
        play(read(words[1]));
    } catch (const std::exception &fault) {
        std::fprintf(stderr, "surfaces: %s\n", fault.what());
        return 1;
    }
    return std::fflush(stdout) == 0 && std::ferror(stdout) == 0 ? 0 : 1;
}
