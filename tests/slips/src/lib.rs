//! Nothing but tests: that the comparison of the two checkers sees the slips that the trade has made.
