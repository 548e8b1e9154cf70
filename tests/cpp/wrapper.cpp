/* Each call of examples/cupdaisy.hpp, with the values of the repository's worked examples. */
#include "cupdaisy.hpp"

#include <cstdio>

using cupdaisy::Bytes;

static int failures;

#define EXPECT(condition)                                             \
    do {                                                              \
        if (!(condition)) {                                           \
            std::printf("%s:%d: %s\n", __FILE__, __LINE__, #condition); \
            failures++;                                               \
        }                                                             \
    } while (0)

static const Bytes A = {0, 0, 1, 0x67, 0x42, 0x00, 0x0A, 0xDA, 0x79, 0, 0, 1, 0x68, 0xCE, 0x38, 0x80,
                        0, 0, 1, 0x65, 0x88, 0x84, 0x80};
static const Bytes P1 = {0, 0, 1, 0x41, 0x9A, 0x23};
static const Bytes P2 = {0, 0, 1, 0x41, 0x9A, 0x43};

template <typename Call> static std::uint32_t refusal(Call call)
{
    try {
        call();
    } catch (const cupdaisy::Refused &refused) {
        return refused.status;
    }
    return CUPDAISY_DONE;
}

static void edits_are_made()
{
    cupdaisy::Session session;
    Bytes stream = A;
    stream.insert(stream.end(), P1.begin(), P1.end());
    EXPECT(session.load(stream).units == 2);
    EXPECT(session.insert_after(2, P2).id == 3 && session.units() == 3 && session.id_at(2) == 3);
    std::uint32_t id = 0;
    EXPECT(session.unit_at(2, id) && id == 3 && !session.unit_at(3, id));
    EXPECT(session.text(2, 0) == P2);
    EXPECT(session.erase(3).number == 4 && session.units() == 2);
    EXPECT(refusal([&] { session.load(Bytes()); }) == 1);
    EXPECT(refusal([&] { session.erase(9); }) == CUPDAISY_NO_SUCH_UNIT);
    EXPECT(refusal([&] { session.id_at(2); }) == CUPDAISY_NO_SUCH_PLACE);
    EXPECT(refusal([] { cupdaisy::Session none(0); }) == CUPDAISY_CACHE_RANGE);
    EXPECT(cupdaisy::Refused(16).what() == std::string("NoSuchUnit"));
}

static void units_behind_a_damage_are_told()
{
    cupdaisy::Session session;
    session.load(A);
    session.insert_after(1, P2);
    session.insert_after(2, P1);
    const std::vector<cupdaisy_doubt> doubts = session.doubts(1, 9);
    EXPECT(doubts.size() == 2 && doubts[0].follows == 0 && doubts[1].follows == 2 && doubts[1].in_doubt == 1);
    EXPECT(session.doubts(3, 9).empty() && session.doubts(0, 0).empty());
}

static void texts_are_mended()
{
    const Bytes delimiter = {0, 0, 1, 0x09, 0xF0};
    const Bytes later = {0, 0, 1, 0x41, 0x5A};
    const Bytes prefix = {0, 0, 1, 0x6E, 0x40, 0x80};
    Bytes text = {0xAB};
    Bytes whole;
    text.insert(text.end(), A.begin(), A.end());
    whole.insert(whole.end(), A.begin(), A.end());
    text.insert(text.end(), later.begin(), later.end());
    whole.insert(whole.end(), delimiter.begin(), delimiter.end());
    whole.insert(whole.end(), later.begin(), later.end());
    for (int i = 0; i < 20; i++)
        text.insert(text.end(), prefix.begin(), prefix.end());
    const cupdaisy::Mended mended = cupdaisy::mend(text);
    EXPECT(mended.bytes == whole && mended.left_out.size() == 21 && mended.left_out[0].why == CUPDAISY_WHY_NOT_NAL_UNIT);
    EXPECT(mended.left_out[20].byte == 29 + 19 * 6 && mended.left_out[20].bytes == 6 && mended.left_out[20].unit_type == 14);
    EXPECT(cupdaisy::mend(whole).bytes == whole && cupdaisy::mend(whole).left_out.empty() && cupdaisy::mend(Bytes()).bytes.empty());
    /* Each of many pictures needs a delimiter. */
    Bytes many;
    for (int i = 0; i < 100; i++) {
        const std::uint8_t header = i % 2 == 0 ? 0x41 : 0x01;
        for (std::uint8_t byte : {std::uint8_t(0), std::uint8_t(0), std::uint8_t(1), header, std::uint8_t(0x5A)})
            many.push_back(byte);
    }
    EXPECT(cupdaisy::mend(many).bytes.size() == 100 * 5 + 99 * 5);
}

static void jobs_are_told()
{
    cupdaisy::Session session(16);
    session.load(A);
    session.insert_after(1, P1);
    cupdaisy_job job;
    cupdaisy::Surface surface = 7;
    EXPECT(session.take(job) && job.number == 1 && session.references(1).empty());
    EXPECT(session.show(1, surface) == CUPDAISY_PENDING && surface == 7 && session.land(1, 40));
    EXPECT(session.show(1, surface) == CUPDAISY_DONE && surface == 40);
    EXPECT(session.take(job) && job.unit == 2 && session.input(job.number).slices == 1);
    EXPECT(session.references(job.number) == std::vector<cupdaisy::Surface>(1, 40));
    EXPECT(session.bytes(job.number, 0) == P1);
    EXPECT(refusal([&] { session.bytes(job.number, 1); }) == CUPDAISY_NO_SUCH_SLICE);
    EXPECT(session.frame_bytes(job.number) == P1 && session.frame_bytes(job.number, false) == Bytes(P1.begin() + 3, P1.end()));
#ifdef __linux__
    EXPECT(session.frame(job.number).slices == 1 && session.frame(job.number).bytes == P1.size());
#endif
    session.give_back(job.number);
    EXPECT(session.take(job) && job.number == 3 && !session.take(job));
    session.erase(2);
    EXPECT(!session.land(3, 41) && refusal([&] { session.land(3, 41); }) == CUPDAISY_NO_SUCH_JOB);
}

static void surfaces_go_back()
{
    cupdaisy::Session session(1);
    Bytes stream = A;
    stream.insert(stream.end(), P1.begin(), P1.end());
    session.load(stream);
    cupdaisy_job job;
    cupdaisy::Surface surface = 7;
    EXPECT(session.take_for(2, job) && job.unit == 1 && session.land(job.number, 40));
    EXPECT(session.take_for(2, job) && job.unit == 2 && session.land(job.number, 41) && !session.take_for(2, job));
    EXPECT(!session.uncache(surface) && session.released().empty());
    EXPECT(session.drop(2, surface) && surface == 41 && !session.drop(2, surface));
    EXPECT(session.take(job) && session.land(job.number, 42));
    /* The cache has room for one of two pictures. */
    session.erase(2);
    session.erase(1);
    EXPECT(session.released() == std::vector<cupdaisy::Surface>(1, 42) && session.released().empty());
    EXPECT(session.uncache(surface) && surface == 40 && !session.uncache(surface));
    EXPECT(refusal([&] { session.drop(2, surface); }) == CUPDAISY_NO_SUCH_UNIT && surface == 40);
}

int main()
{
    edits_are_made();
    units_behind_a_damage_are_told();
    texts_are_mended();
    jobs_are_told();
    surfaces_go_back();
    return failures != 0;
}
