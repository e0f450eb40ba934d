/*
 * Counts the events of a YAML file by yaml-cpp, and prints their number alone.
 *
 *     yaml_cpp_count FILE
 */
#include <yaml-cpp/eventhandler.h>
#include <yaml-cpp/yaml.h>

#include <fstream>
#include <iostream>
#include <sstream>

namespace {

struct Counter : YAML::EventHandler {
    size_t events = 2; // the stream's start and end, which it doesn't tell

    void OnDocumentStart(const YAML::Mark &) override { ++events; }
    void OnDocumentEnd() override { ++events; }
    void OnNull(const YAML::Mark &, YAML::anchor_t) override { ++events; }
    void OnAlias(const YAML::Mark &, YAML::anchor_t) override { ++events; }
    void OnScalar(const YAML::Mark &, const std::string &, YAML::anchor_t, const std::string &) override { ++events; }
    void OnSequenceStart(const YAML::Mark &, const std::string &, YAML::anchor_t, YAML::EmitterStyle::value) override {
        ++events;
    }
    void OnSequenceEnd() override { ++events; }
    void OnMapStart(const YAML::Mark &, const std::string &, YAML::anchor_t, YAML::EmitterStyle::value) override {
        ++events;
    }
    void OnMapEnd() override { ++events; }
};

} // namespace

int main(int words, char **word) {
    std::ifstream file(words > 1 ? word[1] : "/dev/stdin", std::ios::binary);
    std::stringstream text;
    text << file.rdbuf();
    Counter counter;
    try {
        YAML::Parser parser(text);
        while (parser.HandleNextDocument(counter)) {
        }
    } catch (const YAML::Exception &fault) {
        std::cerr << fault.what() << '\n';
        return 1;
    }
    std::cout << counter.events << '\n';
}
