// A program with much debugging information: g++ -std=c++17 -g -O1 bench/headers.cpp -o FILE
#include <algorithm>
#include <chrono>
#include <deque>
#include <filesystem>
#include <functional>
#include <future>
#include <iostream>
#include <map>
#include <random>
#include <regex>
#include <set>
#include <sstream>
#include <thread>
#include <unordered_map>
#include <variant>
#include <vector>
int main(int n, char **v) {
    std::map<std::string, std::vector<int>> m;
    std::unordered_map<int, std::string> u;
    std::regex r("a(b|c)*d");
    std::cout << std::regex_match(v[0], r) << std::filesystem::path(v[0]).filename() << m.size() << u.size();
    std::mt19937_64 g(n);
    std::normal_distribution<double> d;
    std::deque<double> q;
    for (int i = 0; i < n; i++) q.push_back(d(g));
    std::sort(q.begin(), q.end());
    auto f = std::async([&] { return q.size(); });
    std::variant<int, std::string, std::set<long>> x = 3;
    return std::visit([](auto &&) { return 1; }, x) + f.get();
}
