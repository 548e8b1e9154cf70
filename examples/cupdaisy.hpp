/*
 * A session in C++: it is opened where it is made, and closed where its scope ends. A status that the caller can't go on from
 * is thrown as Refused; a call that finds nothing says so by what it returns. cupdaisy.h says what each call does. What a session
 * has of the host's surfaces is the host's again where its scope ends.
 */
#ifndef CUPDAISY_HPP
#define CUPDAISY_HPP

#include "cupdaisy.h"

#include <algorithm>
#include <array>
#include <stdexcept>
#include <string>
#include <vector>

namespace cupdaisy {

/* The number under which the host knows a surface that it decoded a picture to. */
using Surface = std::uint64_t;
using Bytes = std::vector<std::uint8_t>;

inline std::string name_of(std::uint32_t status)
{
    std::array<std::uint8_t, 64> name = {};
    std::size_t length = 0;
    if (cupdaisy_status_name(status, name.data(), name.size(), &length) != CUPDAISY_DONE)
        return std::to_string(status);
    return std::string(name.begin(), name.begin() + static_cast<std::ptrdiff_t>(length));
}

class Refused : public std::runtime_error {
public:
    explicit Refused(std::uint32_t refused) : std::runtime_error(name_of(refused)), status(refused) {}
    std::uint32_t status;
};

inline void expect(std::uint32_t status)
{
    if (status != CUPDAISY_DONE)
        throw Refused(status);
}

/* Whether a call found something; `absent` is what it answers where it found nothing. */
inline bool is_found(std::uint32_t status, std::uint32_t absent)
{
    if (status != absent)
        expect(status);
    return status != absent;
}

/* Where a text begins: no pointer may be null, also of an empty one. */
inline const std::uint8_t *begin_of(const Bytes &text)
{
    static const std::uint8_t nothing = 0;
    return text.empty() ? &nothing : text.data();
}

/* What stays of a text that is mended, and what is left out of it. */
struct Mended {
    Bytes bytes;
    std::vector<cupdaisy_left_out> left_out;
};

/* The text without what a load refuses. */
inline Mended mend(const Bytes &text)
{
    Mended mended = {Bytes(text.size() + 64), std::vector<cupdaisy_left_out>(16)};
    std::size_t needed = 0, count = 0;
    std::uint32_t status = CUPDAISY_TOO_SMALL;
    while (status == CUPDAISY_TOO_SMALL) {
        mended.bytes.resize(std::max(mended.bytes.size(), needed));
        mended.left_out.resize(std::max(mended.left_out.size(), count));
        status = cupdaisy_mend(begin_of(text), text.size(), mended.bytes.data(), mended.bytes.size(), &needed, mended.left_out.data(),
                               mended.left_out.size(), &count);
        if (status == CUPDAISY_DONE && count > mended.left_out.size())
            status = CUPDAISY_TOO_SMALL;
    }
    expect(status);
    mended.bytes.resize(needed);
    mended.left_out.resize(count);
    return mended;
}

class Session {
public:
    explicit Session(std::uint16_t cache = 64) { expect(cupdaisy_open(&handle, cache)); }
    ~Session() { cupdaisy_close(&handle); }
    /* A handle is never copied. One that has to move lies behind a std::unique_ptr. */
    Session(const Session &) = delete;
    Session &operator=(const Session &) = delete;

    cupdaisy_load_receipt load(const Bytes &text)
    {
        cupdaisy_load_receipt receipt;
        expect(cupdaisy_load(&handle, begin_of(text), text.size(), &receipt));
        return receipt;
    }

    cupdaisy_receipt insert_after(std::uint32_t id, const Bytes &text)
    {
        cupdaisy_receipt receipt;
        expect(cupdaisy_insert_after(&handle, id, begin_of(text), text.size(), &receipt));
        return receipt;
    }

    cupdaisy_receipt erase(std::uint32_t id)
    {
        cupdaisy_receipt receipt;
        expect(cupdaisy_delete(&handle, id, &receipt));
        return receipt;
    }

    std::size_t units()
    {
        std::size_t count = 0;
        expect(cupdaisy_units(&handle, &count));
        return count;
    }

    std::uint32_t id_at(std::size_t place)
    {
        std::uint32_t id = 0;
        expect(cupdaisy_id_at(&handle, place, &id));
        return id;
    }

    /* Whether a unit has the position in output order, and its id. */
    bool unit_at(std::size_t position, std::uint32_t &id)
    {
        return is_found(cupdaisy_unit_at(&handle, position, &id), CUPDAISY_NO_SUCH_PLACE);
    }

    /* Which of so many units from a place on follow a damage, and which of them are in doubt. */
    std::vector<cupdaisy_doubt> doubts(std::size_t from, std::size_t count)
    {
        std::vector<cupdaisy_doubt> told(count + 1);
        expect(cupdaisy_doubts(&handle, from, told.data(), count, &count));
        told.resize(count);
        return told;
    }

    /* Remembers what the valid units are made of now, in place of an earlier mark. */
    void mark() { expect(cupdaisy_mark(&handle)); }

    /* Whether a valid unit is made of something of which no unit was at the mark. */
    bool is_altered(std::uint32_t id)
    {
        std::uint32_t altered = 0;
        expect(cupdaisy_is_altered(&handle, id, &altered));
        return altered == 1;
    }

    /* CUPDAISY_DONE with the picture's surface, or CUPDAISY_PENDING, _HAS_FAULT, _NO_PICTURE or _NO_SUCH_UNIT. */
    std::uint32_t show(std::uint32_t id, Surface &surface) { return cupdaisy_show(&handle, id, &surface); }

    bool take(cupdaisy_job &job) { return is_found(cupdaisy_take(&handle, &job), CUPDAISY_NOTHING_DUE); }

    /* A job for what the picture of this unit needs; none where it needs nothing that is due. */
    bool take_for(std::uint32_t id, cupdaisy_job &job)
    {
        return is_found(cupdaisy_take_for(&handle, id, &job), CUPDAISY_NOTHING_DUE);
    }

    /* The surface of the unit's picture is the host's again, if that was held: whether it was. */
    bool drop(std::uint32_t id, Surface &surface)
    {
        return is_found(cupdaisy_drop_picture(&handle, id, &surface), CUPDAISY_NOT_HELD);
    }

    /* The surface of the picture that was cached first is the host's again, if one is cached. */
    bool uncache(Surface &surface) { return is_found(cupdaisy_uncache(&handle, &surface), CUPDAISY_NOT_HELD); }

    /* The surfaces that edits let go and that are the host's again. */
    std::vector<Surface> released()
    {
        std::vector<Surface> all;
        std::array<Surface, 16> some = {};
        std::size_t count = some.size();
        while (count == some.size()) {
            expect(cupdaisy_released(&handle, some.data(), some.size(), &count));
            all.insert(all.end(), some.begin(), some.begin() + static_cast<std::ptrdiff_t>(count));
        }
        return all;
    }

    /* Says that the host's decoder made the surface's picture of the job: whether the session has the surface now. */
    bool land(std::uint64_t job, Surface surface) { return is_found(cupdaisy_land(&handle, job, surface), CUPDAISY_STALE); }

    void give_back(std::uint64_t job) { expect(cupdaisy_give_back(&handle, job)); }

    cupdaisy_job_input input(std::uint64_t job)
    {
        cupdaisy_job_input input;
        expect(cupdaisy_job_input_of(&handle, job, &input));
        return input;
    }

    /* The surfaces that a job refers to. */
    std::vector<Surface> references(std::uint64_t job)
    {
        std::vector<Surface> surfaces;
        const std::uint64_t count = input(job).references;
        for (std::size_t index = 0; index < count; index++) {
            cupdaisy_reference reference;
            expect(cupdaisy_job_reference(&handle, job, index, &reference));
            surfaces.push_back(reference.surface);
        }
        return surfaces;
    }

    /* The bytes of a slice of a job, after a start code of three bytes. */
    Bytes bytes(std::uint64_t job, std::size_t slice)
    {
        return filled([&](std::uint8_t *text, std::size_t capacity, std::size_t *needed) {
            return cupdaisy_job_bytes(&handle, job, slice, text, capacity, needed);
        });
    }

#ifdef __linux__
    /* The request of a job's whole picture. */
    cupdaisy_frame frame(std::uint64_t job)
    {
        cupdaisy_frame frame;
        expect(cupdaisy_job_frame(&handle, job, &frame));
        return frame;
    }
#endif

    /* The bytes of all slices of a job, each after a start code of three bytes; or those of its only slice, without it. */
    Bytes frame_bytes(std::uint64_t job, bool start_codes = true)
    {
        return filled([&](std::uint8_t *text, std::size_t capacity, std::size_t *needed) {
            return cupdaisy_job_frame_bytes(&handle, job, start_codes, text, capacity, needed);
        });
    }

    /* The text of an edit of the journal. */
    Bytes text(std::size_t entry, std::size_t index)
    {
        return filled([&](std::uint8_t *text, std::size_t capacity, std::size_t *needed) {
            return cupdaisy_journal_text(&handle, entry, index, text, capacity, needed);
        });
    }

private:
    /* What a call writes, once it has as much room as it says that it needs. */
    template <typename Call> static Bytes filled(Call call)
    {
        Bytes text(1);
        std::size_t needed = 0;
        std::uint32_t status = call(text.data(), 0, &needed);
        if (status == CUPDAISY_TOO_SMALL) {
            text.resize(needed);
            status = call(text.data(), needed, &needed);
        }
        expect(status);
        text.resize(needed);
        return text;
    }

    cupdaisy_session handle = CUPDAISY_NONE;
};

}

#endif
