// Is the list of tags that an RFID reader claims complete? The library of vicinity.h for C++11 and
// later: what C would have to free is owned, and memory that runs out is std::bad_alloc. Nothing here
// reads a log: each answer is that of a proved call.
//
//     vicinity::Answer answer = vicinity::check("vicinity-log 1\nT 260100F60A\nS\n");
//     if (answer.is_complete())
//
// A text is bytes: a log as it was written, whatever ends its lines, and each NUL in it. Any number
// of threads may call at the same time.
#ifndef VICINITY_HPP
#define VICINITY_HPP

#include "vicinity.h"

#include <cstdint>
#include <cstdio>
#include <new>
#include <stdexcept>
#include <string>
#include <type_traits>
#include <utility>
#include <vector>
#if __cplusplus >= 201703L
#include <string_view>
#endif

namespace vicinity
{

// The name of an enum vicinity_fault or vicinity_refusal.
inline std::string fault_name(std::uint32_t fault)
{
    vicinity_name name;
    std::uint32_t len = vicinity_fault_name(fault, &name);
    return len > 0 ? std::string(name.text, len) : "fault " + std::to_string(fault);
}

// The version of the library: 10,000 times its first number, 100 times its second, its third.
inline std::uint32_t version()
{
    return vicinity_version();
}

// ---- texts

// The bytes of a text, which have to outlive it: those of a std::string, of a literal, or so many
// from a pointer on, and from C++17 on those of a std::string_view. A pointer alone is no text: one
// that has a NUL would seem to end there, and the answer would be about its beginning.
class Text
{
  public:
    Text(const std::string &text) : Text(text.data(), text.size()) {}
#if __cplusplus >= 201703L
    Text(std::string_view text) : Text(text.data(), text.size()) {}
#endif
    template <std::size_t Size>
    Text(const char (&literal)[Size]) : Text(literal, Size - (literal[Size - 1] == '\0'))
    {
    }
    Text(const char *start, std::size_t count)
        : Text(reinterpret_cast<const std::uint8_t *>(start), count)
    {
    }
    Text(const std::uint8_t *start, std::size_t count) : bytes_(start), size_(count) {}

    template <std::size_t Size> Text(char (&)[Size]) = delete; // how much of it is the text?
    template <typename Pointer,
              typename = typename std::enable_if<std::is_pointer<Pointer>::value>::type>
    Text(Pointer) = delete;

    const std::uint8_t *bytes() const { return bytes_; }
    std::size_t size() const { return size_; }

  private:
    const std::uint8_t *bytes_;
    std::size_t size_;
};

// ---- errors

// A frame, mask or line can't be made, or a frame not be read: an enum vicinity_refusal or
// vicinity_fault.
struct WrongFrame : std::invalid_argument {
    std::uint32_t fault;
    explicit WrongFrame(std::uint32_t why) : std::invalid_argument(fault_name(why)), fault(why) {}
};

// The texts aren't what a command takes, as two logs for `check`, or a name has LF.
struct Usage : std::invalid_argument {
    Usage() : std::invalid_argument("usage") {}
};

// What `simulate` refuses: the line of the program.
struct NotSimulated : std::runtime_error {
    explicit NotSimulated(const std::string &line) : std::runtime_error(line) {}
};

// ---- UIDs and masks

// The digits of a UID, most significant first.
inline std::string uid_text(std::uint64_t uid)
{
    char text[17];
    std::snprintf(text, sizeof text, "%016llX", static_cast<unsigned long long>(uid));
    return text;
}

// The UIDs whose `len` low bits are `value`.
struct Mask {
    std::uint32_t len;
    std::uint64_t value;

    // Whether the UID is one of them. No UID has more than 64 bits.
    bool holds(std::uint64_t uid) const
    {
        return len == 0 || (len <= 64 && (uid ^ value) << (64 - len) == 0);
    }

    // As the program writes it, and as `vicinity spell` takes it.
    std::string text() const
    {
        char digits[17];
        std::snprintf(digits, sizeof digits, "%0*llX", static_cast<int>((len + 7) / 8 * 2),
                      static_cast<unsigned long long>(value));
        return std::to_string(len) + " " + (len == 0 ? "-" : digits);
    }
};

// ---- answers

// The answer to a text. Its fields are those of struct vicinity_answer.
struct Answer : vicinity_answer {
    // No answer: the kind is VICINITY_NO_ANSWER and the status 4.
    Answer() noexcept : vicinity_answer() { status = VICINITY_STATUS_NO_ANSWER; }

    // Whether the list is complete.
    bool is_complete() const { return kind == VICINITY_COMPLETE; }

    // The line of the program, without its LF.
    std::string line_text() const
    {
        std::string whole(text);
        return whole.substr(0, whole.find('\n'));
    }
};

struct Explained {
    Answer answer;
    // tags that could have produced the log and differ from its list
    std::vector<std::uint64_t> population;
};

// The line of a finding begins with these words; then comes its UID, its mask or its line.
inline std::string finding_text(const vicinity_finding &finding)
{
    vicinity_name kind;
    switch (finding.kind) {
    case VICINITY_FINDING_UNSETTLED:
        return "unsettled " + Mask{finding.mask_len, finding.mask_value}.text();
    case VICINITY_FINDING_OPEN_MASK:
        return "open " + Mask{finding.mask_len, finding.mask_value}.text();
    case VICINITY_FINDING_MORE_OPEN_MASKS: return "more open";
    case VICINITY_FINDING_CONFLICT_LINE: return "by line " + std::to_string(finding.line);
    case VICINITY_FINDING_SILENCED_BY: return "silenced by line " + std::to_string(finding.line);
    default:
        vicinity_kind_name(finding.kind, &kind);
        return kind.text + (" " + uid_text(finding.uid));
    }
}

struct Report {
    Answer answer;
    std::vector<vicinity_finding> findings;
};

// What a log proves less about its list if it is read more cautiously.
struct Reading {
    bool opens; // whether other tags could then be there; if not, the list is complete even so
    Mask mask;  // the first mask, by length and then by value, of their UIDs

    // As the program writes it.
    std::string text() const { return opens ? mask.text() : "-"; }
};

// Where a list is least sure: the margin of a log, and the first mask, by length and then by value,
// whose UIDs have it and aren't listed.
struct Weakest {
    std::uint32_t margin; // in how many slots such a tag would have had to be missed
    Mask mask;
    Reading hidden; // of a complete list, if each reply R may have hidden others
    Reading deaf;   // the same if, besides, the reader may have gone deaf after the last slot in
                    // which a tag answered
};

struct Margin {
    Answer answer;
    Weakest weakest; // zeros if the text is refused or the log impossible
};

// ---- what the calls share

namespace detail
{

inline Answer answered(const Answer &answer)
{
    if (answer.kind == VICINITY_NO_ANSWER)
        throw std::bad_alloc();
    return answer;
}

// The answer of a call, and all that it writes to a buffer: if that is too small, the call is made
// again.
template <typename Element, typename Call> Answer fill(std::vector<Element> &buffer, Call call)
{
    buffer.resize(64);
    for (;;) {
        Answer answer{};
        std::size_t needed = 0;
        call(&answer, buffer.data(), buffer.size(), &needed);
        bool held = needed <= buffer.size();
        buffer.resize(needed);
        if (held)
            return answered(answer);
    }
}

inline Margin measured(const Answer &answer, const vicinity_weakest &told)
{
    return {answered(answer),
            {told.margin,
             {told.mask_len, told.mask_value},
             {told.has_hidden != 0, {told.hidden_len, told.hidden_value}},
             {told.has_deaf != 0, {told.deaf_len, told.deaf_value}}}};
}

inline void refuse(std::uint32_t fault)
{
    if (fault != 0)
        throw WrongFrame(fault);
}

inline std::vector<std::uint8_t> frame(const vicinity_frame &told)
{
    refuse(told.fault);
    return {told.bytes, told.bytes + told.len};
}

} // namespace detail

// ---- the calls

// Whether the linked library has the interface of the header.
inline bool fits()
{
    return vicinity_interface() == VICINITY_INTERFACE;
}

// The answer to a log, as `vicinity check`.
inline Answer check(Text text)
{
    Answer answer{};
    vicinity_check(text.bytes(), text.size(), &answer);
    return detail::answered(answer);
}

// The answer to a log, and a counterexample, as `vicinity explain`.
inline Explained explain(Text text)
{
    Explained told{};
    told.answer = detail::fill(told.population, [&](Answer *answer, std::uint64_t *uids,
                                                    std::size_t room, std::size_t *needed) {
        vicinity_explain(text.bytes(), text.size(), answer, uids, room, needed);
    });
    return told;
}

// The answer to a log, and every finding, as `vicinity report`.
inline Report report(Text text)
{
    Report told{};
    told.answer = detail::fill(told.findings, [&](Answer *answer, vicinity_finding *found,
                                                  std::size_t room, std::size_t *needed) {
        vicinity_report(text.bytes(), text.size(), answer, found, room, needed);
    });
    return told;
}

// The same for a text without `U` lines, followed by one for each of these UIDs, in any order. Its
// last line may lack its LF.
inline Answer check_listed(Text text, const std::vector<std::uint64_t> &uids)
{
    Answer answer{};
    vicinity_check_listed(text.bytes(), text.size(), uids.data(), uids.size(), &answer);
    return detail::answered(answer);
}

// The answer to a log, and its margin, as `vicinity margin`.
inline Margin margin(Text text)
{
    Answer answer{};
    vicinity_weakest told;
    vicinity_margin(text.bytes(), text.size(), &answer, &told);
    return detail::measured(answer, told);
}

inline Margin margin_listed(Text text, const std::vector<std::uint64_t> &uids)
{
    Answer answer{};
    vicinity_weakest told;
    vicinity_margin_listed(text.bytes(), text.size(), uids.data(), uids.size(), &answer, &told);
    return detail::measured(answer, told);
}

// A text with its name, such as that of its file: UTF-8, without LF. Both are copies, so a buffer
// may be filled again.
struct Named {
    std::string name, text;

    Named(std::string its_name, const Text &its_text)
        : name(std::move(its_name)), text(its_text.bytes(), its_text.bytes() + its_text.size())
    {
    }
};

// What the program writes to standard output, and its exit status.
struct Written {
    std::string text;
    vicinity_status status;
};

// What the program does for a command over texts in memory. Usage: they aren't what it takes.
// std::bad_alloc is also for a name that isn't UTF-8.
inline Written run(vicinity_command command, const std::vector<Named> &texts)
{
    std::string names, joined;
    std::vector<std::size_t> lengths;
    for (const Named &one : texts) {
        if (one.name.find('\n') != std::string::npos)
            throw Usage();
        names += one.name + '\n';
        joined += one.text;
        lengths.push_back(one.text.size());
    }
    std::vector<std::uint8_t> room(64);
    for (;;) {
        std::size_t needed = 0;
        const vicinity_status status =
            vicinity_run(command, Text(names).bytes(), names.size(), Text(joined).bytes(),
                         joined.size(), lengths.data(), lengths.size(), room.data(), room.size(),
                         &needed);
        if (status == VICINITY_STATUS_NO_ANSWER && needed > 0)
            throw Usage();
        if (status == VICINITY_STATUS_NO_ANSWER)
            throw std::bad_alloc();
        bool held = needed <= room.size();
        room.resize(needed);
        if (held)
            return {{room.begin(), room.end()}, status};
    }
}

// The log that conforming tags would produce: the text has the requests, and lists the tags.
inline std::string simulate(Text text)
{
    const Written told = run(VICINITY_COMMAND_SIMULATE, {{"", text}});
    if (told.status != VICINITY_STATUS_DONE)
        throw NotSimulated(told.text.substr(0, told.text.find('\n')));
    return told.text;
}

// ---- frames and lines: each is a WrongFrame where it can't be made or read

inline std::vector<std::uint8_t> write_inventory(std::uint32_t link, std::uint32_t slot_count,
                                                 Mask mask = Mask{0, 0})
{
    vicinity_frame told;
    vicinity_write_inventory(link, slot_count, mask.len, mask.value, &told);
    return detail::frame(told);
}

inline std::vector<std::uint8_t> write_stay_quiet(std::uint32_t link, std::uint64_t uid)
{
    vicinity_frame told;
    vicinity_write_stay_quiet(link, uid, &told);
    return detail::frame(told);
}

inline std::vector<std::uint8_t> write_response(std::uint32_t flags, std::uint32_t dsfid,
                                                std::uint64_t uid)
{
    vicinity_frame told;
    vicinity_write_response(flags, dsfid, uid, &told);
    return detail::frame(told);
}

// At most 14 bytes followed by their CRC, for a chip that strips the CRC.
inline std::vector<std::uint8_t> add_crc(const std::vector<std::uint8_t> &content)
{
    vicinity_frame told;
    vicinity_add_crc(content.data(), content.size(), &told);
    return detail::frame(told);
}

inline vicinity_request read_request(const std::vector<std::uint8_t> &frame)
{
    vicinity_request told;
    detail::refuse(vicinity_read_request(frame.data(), frame.size(), &told));
    return told;
}

inline vicinity_reply read_response(const std::vector<std::uint8_t> &frame)
{
    vicinity_reply told;
    detail::refuse(vicinity_read_response(frame.data(), frame.size(), &told));
    return told;
}

// The mask of a slot, counted from 0, of an Inventory request: which UIDs answer in it.
inline Mask slot_mask(std::uint32_t slot_count, Mask mask, std::uint32_t slot)
{
    vicinity_mask told;
    detail::refuse(vicinity_slot_mask(slot_count, mask.len, mask.value, slot, &told));
    return {told.len, told.value};
}

// A line of a log, LF included: 'T', 'R' or 'H' with a frame, which isn't judged; 'S', 'C', 'D', 'N'
// or 'F' alone.
inline std::string write_line(char letter, const std::vector<std::uint8_t> &frame = {},
                              std::uint64_t uid = 0)
{
    vicinity_line told;
    detail::refuse(vicinity_write_line(static_cast<std::uint8_t>(letter), frame.data(),
                                       frame.size(), uid, &told));
    return {told.text, told.len};
}

// The line of a UID that the reader lists, LF included.
inline std::string write_listed(std::uint64_t uid)
{
    return write_line('U', {}, uid);
}

} // namespace vicinity

#endif
