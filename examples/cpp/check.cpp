// Checks a log, FILE or standard input; shows how sure a complete list is, or a counterexample. If
// logs follow, reconciles these with the list of FILE, as vicinity reconcile: check [FILE [LOG ..]]
#include "vicinity.hpp"

#include <cstdio>
#include <iostream>
#include <memory>
#include <stdexcept>
#ifdef _WIN32
#include <fcntl.h>
#include <io.h>
#endif

// An error of reading must not look like the end of the text, as it does to a stream.
static std::string read(const std::string &name, std::FILE *opened)
{
    if (!opened)
        throw std::runtime_error("cannot open " + name);
    const std::unique_ptr<std::FILE, int (*)(std::FILE *)> file(opened, std::fclose);
    std::string text;
    char piece[4096];
    while (const std::size_t count = std::fread(piece, 1, sizeof piece, opened))
        text.append(piece, count);
    if (std::ferror(opened))
        throw std::runtime_error("cannot read " + name);
    return text;
}

// An answer that can't be written is none.
static int show(const std::string &text, int status)
{
    if (!(std::cout << text).flush())
        throw std::runtime_error("cannot write");
    return status;
}

static int check(const std::string &text)
{
    const vicinity::Explained explained = vicinity::explain(text);
    for (std::uint64_t uid : explained.population)
        std::cerr << vicinity::write_listed(uid);
    if (explained.answer.is_complete()) {
        const vicinity::Weakest weakest = vicinity::margin(text).weakest;
        std::cerr << "margin " << weakest.margin << "\nweakest " << weakest.mask.text() << "\nhidden "
                  << weakest.hidden.text() << "\ndeaf " << weakest.deaf.text() << '\n';
    }
    return show(explained.answer.text, static_cast<int>(explained.answer.status));
}

static int reconcile(const std::vector<vicinity::Named> &texts)
{
    const vicinity::Written told = vicinity::run(VICINITY_COMMAND_RECONCILE, texts);
    return show(told.text, told.status);
}

int main(int argc, char **argv)
{
    std::vector<std::string> texts;
    if (!vicinity::fits())
        return 4;
#ifdef _WIN32 // as text, standard input would end at a byte 26
    _setmode(_fileno(stdin), _O_BINARY);
#endif
    try {
        for (int i = 1; i < argc; i++)
            texts.push_back(read(argv[i], std::fopen(argv[i], "rb")));
        if (argc == 1)
            texts.push_back(read("standard input", stdin));
        if (argc <= 2)
            return check(texts[0]);
        std::vector<vicinity::Named> named;
        for (int i = 1; i < argc; i++)
            named.push_back({argv[i], texts[static_cast<std::size_t>(i) - 1]});
        return reconcile(named);
    } catch (const std::exception &error) {
        std::cerr << error.what() << '\n';
        return 4;
    }
}
