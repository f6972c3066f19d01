//! Stand-in: there is no login.
