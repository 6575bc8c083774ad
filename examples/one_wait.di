# Two ways through one wait, which both give c.
main := pref*[(a?||b?);(c!||d!)|e?;c!].
