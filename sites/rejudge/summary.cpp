#include "summary.hpp"

#include <algorithm>

namespace sites {

void Summary::add(const Finding &finding) {
    outcomes_[static_cast<std::size_t>(finding.outcome)]++;
    stored_[static_cast<std::size_t>(finding.stored)]++;
    if (finding.counts) {
        arrows_ += finding.counts->no_path;
        sheets_with_arrows_ += finding.counts->no_path > 0;
    }
    status_ = std::max(status_, sites::status(finding));
}

std::string Summary::text() const {
    using std::to_string;
    std::string result = "judged: " + to_string(count(Outcome::accepted)) + " accepted, " + to_string(count(Outcome::broken)) + " broken, " +
                         to_string(count(Outcome::refused)) + " refused; " + to_string(count(Outcome::unread)) + " not read, " +
                         to_string(count(Outcome::skipped)) + " skipped\n";
    result += "stored verdicts: " + to_string(count(Stored::same)) + " same, " + to_string(count(Stored::changed)) + " changed, " +
              to_string(count(Stored::none)) + " missing, " + to_string(count(Stored::written)) + " new, " +
              to_string(count(Stored::unread)) + " not read, " + to_string(count(Stored::unwritten)) + " not written\n";
    return result + "needed arrows with no drawn path: " + to_string(arrows_) + "; sheets that have one: " + to_string(sheets_with_arrows_) + "\n";
}

} // namespace sites
