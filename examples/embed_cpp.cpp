/*
 * A stream is loaded, decoded by a decoder of the program's own, shown, and edited. docs/EMBEDDING.md has the same in other languages.
 *     build/embed_cpp FILE
 */
#include "cupdaisy.hpp"

#include <cstdio>
#include <fstream>

namespace {

/* A decoder's surfaces: here numbers in the place of pictures. */
using Surfaces = std::vector<std::uint32_t>;

/* Mixes a number into a sum (FNV-1a). */
std::uint32_t mixed(std::uint32_t sum, std::uint32_t number)
{
    return (sum ^ number) * UINT32_C(0x01000193);
}

/* What the decoder makes of the surfaces that a job refers to, and of its bytes. */
std::uint32_t decode(cupdaisy::Session &session, const Surfaces &surfaces, std::uint64_t job)
{
    std::uint32_t picture = 0;
    for (const cupdaisy::Surface reference : session.references(job))
        picture = mixed(picture, surfaces[reference]);
    const std::uint64_t slices = session.input(job).slices;
    for (std::size_t slice = 0; slice < slices; slice++)
        for (const std::uint8_t byte : session.bytes(job, slice))
            picture = mixed(picture, byte);
    return picture;
}

/* Decodes what is missing, and shows all in output order. */
void play(cupdaisy::Session &session, Surfaces &surfaces)
{
    cupdaisy_job job;
    cupdaisy::Surface surface = 0;
    std::uint32_t id = 0, sum = 0;
    unsigned decoded = 0, shown = 0;
    for (; session.take(job); decoded++) {
        surfaces.push_back(decode(session, surfaces, job.number));
        session.land(job.number, surfaces.size() - 1);
    }
    for (std::size_t position = 0; session.unit_at(position, id); position++)
        if (session.show(id, surface) == CUPDAISY_DONE) {
            sum = mixed(sum, surfaces[surface]);
            shown++;
        }
    std::printf("decoded %u, shown %u, together %08lx\n", decoded, shown, static_cast<unsigned long>(sum));
}

}

int main(int count, char **words)
{
    std::ifstream file(count == 2 ? words[1] : "", std::ios::binary);
    const std::vector<char> text((std::istreambuf_iterator<char>(file)), std::istreambuf_iterator<char>());
    try {
        cupdaisy::Session session(4);
        Surfaces surfaces;
        session.load(cupdaisy::Bytes(text.begin(), text.end()));
        play(session, surfaces);
        session.erase(12);
        play(session, surfaces);
        std::printf("given back %lu\n", static_cast<unsigned long>(session.released().size()));
    } catch (const cupdaisy::Refused &refused) {
        std::fprintf(stderr, "embed_cpp: %s\n", refused.what());
        return 1;
    }
    return 0;
}
