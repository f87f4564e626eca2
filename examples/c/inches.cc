// Converts inches to centimetres without rounding, by the class of ratio.hpp. It needs C++17.
#include "ratio.hpp"

#include <iostream>

int main() {
    using namespace bakhsney::literals;

    const bakhsney::ratio inch = 2.54_r, foot = 12 * inch;   // exactly 127/50 and 762/25
    std::cout << foot << " cm, or " << foot.decimal(2) << " cm\n";

    try {
        std::cout << foot / 0 << "\n";
    } catch (const std::range_error &error) {
        std::cout << error.what() << "\n";   // ratio: division by zero
    }

    // Mile by mile, as a sum of a thousand terms: no step has to fit.
    const std::vector<bakhsney::ratio> miles(1000, 5280 * foot);
    if (const auto sum = bakhsney::try_sum(miles.begin(), miles.end())) std::cout << *sum / 100000 << " km\n";
}

/* It prints:
762/25 cm, or 30.48 cm
ratio: division by zero
201168/125 km
*/
