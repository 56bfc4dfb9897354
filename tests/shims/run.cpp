// The program by the binding for C++: the number of a command, and then files, of which none means
// standard input, or words.
#include "vicinity.hpp"

#include <cstdlib>
#include <fstream>
#include <iostream>
#include <iterator>

static std::string all_of(std::istream &from)
{
    return {std::istreambuf_iterator<char>(from), std::istreambuf_iterator<char>()};
}

int main(int count, char **words)
{
    const vicinity_command command = static_cast<vicinity_command>(std::atoi(words[1]));
    const bool reads = command != VICINITY_COMMAND_FRAME && command != VICINITY_COMMAND_SPELL;
    std::vector<std::string> names(words + 2, words + count), texts;
    if (reads && names.empty())
        names.push_back("/dev/stdin");
    std::vector<vicinity::Named> given;
    for (const std::string &name : names) {
        std::ifstream file(name, std::ios::binary);
        texts.push_back(reads ? all_of(file) : name);
    }
    for (std::size_t i = 0; i < names.size(); i++)
        given.push_back({reads ? names[i] : "", texts[i]});
    try {
        const vicinity::Written written = vicinity::run(command, given);
        std::cout << written.text;
        return written.status;
    } catch (const vicinity::Usage &usage) {
        std::cerr << "vicinity: " << usage.what() << '\n';
        return VICINITY_STATUS_NO_ANSWER;
    }
}
