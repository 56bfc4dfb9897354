// What a program relies on, tried once.
#include "vicinity.hpp"

#include <cstdlib>
#include <cstring>
#include <iostream>

static int passed;

static void is(bool holds, const char *what)
{
    if (!holds) {
        std::cerr << "failed: " << what << '\n';
        std::exit(1);
    }
    passed++;
}
#define IS(what) is(what, #what)

// What a call throws; an empty text if nothing.
template <typename Error, typename Call> static std::string thrown(Call call)
{
    try {
        call();
    } catch (const Error &error) {
        return error.what();
    }
    return "";
}

static const std::string SILENT = "vicinity-log 1\nT 260100F60A\nS\n";
static const std::string ONE = "vicinity-log 1\nT 260100F60A\nR 0000A1000000000104E06745\n";
static const std::uint64_t A = 0xE0040100000000A1, B = 0xE0040100000000B2;

static void try_answers()
{
    IS(vicinity::fits());
    IS(vicinity::check(SILENT).is_complete());
    IS(vicinity::check(SILENT).line_text() == "complete 0");
    IS(!vicinity::check("").is_complete());
    // what no call returned is no answer
    IS(vicinity::Answer().status == 4 && !vicinity::Answer().is_complete());
    IS(!vicinity::Mask({65, 0}).holds(A));
    IS(vicinity::explain(ONE).population == std::vector<std::uint64_t>{A});
    IS(vicinity::report(ONE).findings.size() == 1);
    IS(vicinity::finding_text(vicinity::report(ONE).findings[0]) == "unlisted E0040100000000A1");
    // a comment without LF before the list doesn't swallow its first UID
    for (const std::string &text : {ONE, ONE + "# end", ONE.substr(0, ONE.size() - 1)}) {
        IS(vicinity::check_listed(text, {A}).line_text() == "complete 1");
        IS(vicinity::check_listed(text, {B, A}).line_text() == "absent E0040100000000B2");
    }
}

// A pointer alone, or a buffer, doesn't say where its text ends: not at a NUL.
template <typename From> constexpr bool is_no_text()
{
    return !std::is_constructible<vicinity::Text, From>::value;
}
static_assert(is_no_text<const char *>() && is_no_text<char *>() && is_no_text<char (&)[9]>() &&
                  is_no_text<const unsigned char *>() && is_no_text<const char *const &>(),
              "a text has a length");

static void try_texts()
{
    // what is behind a NUL counts: here a tag that answers after a silent slot
    const char nul[] = "vicinity-log 1\nT 260100F60A\nS\n# \0\nT 260100F60A\n"
                       "R 0000A1000000000104E06745\n";
    const std::string text(nul, sizeof nul - 1);
    IS(text.size() > std::strlen(nul));
    IS(vicinity::check(nul).line_text() == "impossible at line 6");
    IS(vicinity::check(text).line_text() == "impossible at line 6");
    IS(vicinity::check({text.data(), text.size()}).line_text() == "impossible at line 6");
    const auto *bytes = reinterpret_cast<const std::uint8_t *>(text.data());
    IS(vicinity::report({bytes, text.size()}).findings.size() == 2);
    IS(vicinity::check_listed(nul, {}).line_text() == "impossible at line 6");
    IS(vicinity::check({nul, std::strlen(nul)}).is_complete());
    // the last byte of an array is one of the text, unless it is NUL
    const char without[] = {'v', 'i', 'c', 'i', 'n', 'i', 't', 'y', '-', 'l', 'o', 'g', ' ', '1'};
    IS(vicinity::check(without).line_text() == "unsettled 0 -");
#if __cplusplus >= 201703L
    IS(vicinity::check(std::string_view(text)).line_text() == "impossible at line 6");
    IS(vicinity::check(std::string_view()).line_text() == "refused at line 1: Header");
#endif
}

static void try_margins()
{
    const vicinity::Margin silent = vicinity::margin(SILENT);
    IS(silent.answer.is_complete());
    IS(silent.weakest.margin == 1 && silent.weakest.mask.text() == "0 -");
    IS(silent.weakest.hidden.text() == "-" && silent.weakest.deaf.text() == "0 -");
    // A answers and is silenced, then nobody does: B was overlooked in both slots
    const std::string quiet =
        ONE + vicinity::write_line('T', vicinity::write_stay_quiet(2, A)) + "T 260100F60A\nS";
    const vicinity::Margin listed = vicinity::margin_listed(quiet, {A});
    IS(listed.answer.line_text() == "complete 1");
    IS(listed.weakest.margin == 2 && listed.weakest.mask.text() == "1 00");
    IS(listed.weakest.hidden.text() == "-" && listed.weakest.deaf.text() == "1 00");
}

static vicinity::Written run(vicinity_command command, const std::vector<vicinity::Named> &texts)
{
    return vicinity::run(command, texts);
}

static void try_run()
{
    const vicinity::Named catalogue = {"books.csv", "uid,title\nE0040100000000A1,Emma\n"};
    const vicinity::Written told =
        run(VICINITY_COMMAND_SURVEY, {{"shelf", ONE}, {"cart", SILENT}});
    IS(told.status == 0 && told.text.compare(0, 24, "vicinity-survey 1 shelf\n") == 0);
    const std::string &sent = told.text;
    IS(run(VICINITY_COMMAND_COLLECTION, {catalogue, {"sent", sent}}).status == 0);
    // a part of a survey is none
    IS(run(VICINITY_COMMAND_COLLECTION, {catalogue, {"sent", {sent.data(), sent.size() - 1}}})
           .status == 3);
    // a buffer that is filled again, with a text of the same length
    std::string buffer = std::string(VICINITY_HEADER_LINE) + "U E0040100000000A1\n";
    const vicinity::Named first = {"first", buffer};
    buffer.replace(buffer.size() - 3, 2, "B2");
    IS(first.text.find("A1") != std::string::npos && buffer.find("A1") == std::string::npos);
    IS(thrown<vicinity::Usage>([] { run(VICINITY_COMMAND_CHECK, {}); }) == "usage");
    IS(thrown<vicinity::Usage>([] { run(VICINITY_COMMAND_CHECK, {{"\n", SILENT}}); }) == "usage");
}

static void try_frames()
{
    IS(vicinity::write_line('T', vicinity::write_inventory(2, 1)) == "T 260100F60A\n");
    IS(vicinity::write_listed(A) == "U E0040100000000A1\n");
    IS(vicinity::write_line('S') == "S\n");
    IS(thrown<vicinity::WrongFrame>([] { vicinity::write_line('X'); }) == "WrongLetter");
    const std::string asked = VICINITY_HEADER_LINE +
        vicinity::write_line('T', vicinity::write_inventory(2, 1));
    IS(vicinity::check(asked + vicinity::write_line('N')).line_text() == "unsettled 0 -");
    const std::string reply = vicinity::write_line('H', vicinity::write_response(0, 0, A));
    IS(vicinity::check(asked + reply + vicinity::write_listed(A)).line_text() == "unsettled 1 00");
    IS(thrown<vicinity::WrongFrame>([] { vicinity::write_inventory(4, 1); }) == "WrongLink");
    IS(vicinity::read_request(vicinity::write_stay_quiet(2, B)).uid == B);
    IS(vicinity::read_response(vicinity::write_response(0, 7, A)).dsfid == 7);
    IS(thrown<vicinity::WrongFrame>([] { vicinity::read_response({0, 0, 0xA1}); }) == "Length");
    IS((vicinity::add_crc({0x26, 0x01, 0x00}) == vicinity::write_inventory(2, 1)));
    IS(vicinity::slot_mask(16, {3, 1}, 12).text() == "7 61");
    IS(vicinity::slot_mask(16, {3, 1}, 12).holds(0xE0040100000000E1));
    IS((vicinity::Mask{0, 0}.text() == "0 -" && vicinity::Mask{0, 0}.holds(A)));
    IS(vicinity::simulate("vicinity-log 1\nT 260100F60A\nU E0040100000000A1\n") ==
       ONE + "U E0040100000000A1\n");
    IS(vicinity::version() == VICINITY_VERSION_NUMBER);
    IS(thrown<vicinity::NotSimulated>([] { vicinity::simulate("x"); }) ==
       "refused at line 1: Header");
}

int main()
{
    try_answers();
    try_texts();
    try_margins();
    try_run();
    try_frames();
    std::cout << passed << " passed\n";
}
