# What sys_charge of charge.c gives, in the code's words.

def sys_charge(state, pages, rate):
    return True, state, pages * (rate + 1)
