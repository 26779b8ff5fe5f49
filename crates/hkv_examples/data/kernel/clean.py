# One property more, to be put behind kernel.py: the words of a frame that count as cleared are 0, so that a frame which
# is handed out is all 0. It needs prop_running and prop_cleared, and no other one. What a process writes into a frame
# changes nothing here: a mapped frame has no cleared words.

def prop_clean(state):
    g = Var(FrameT)
    w = Var(WordT)
    return ForAll([g, w], Implies(ULT(w, state.frame_cleared(g)), state.frame_word(g, w) == 0))
