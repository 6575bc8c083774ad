# Any of five inputs, and then one output.
main := pref*[(a?|b?|c?|d?|e?);f!].
