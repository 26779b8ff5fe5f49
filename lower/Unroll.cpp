// Comes in: a function. Goes out: the same with each loop of a constant greatest number of rounds, up to the limit, as so many copies of
// its body, by LLVM's unrolling. Branches that a copy decides go with it.
#include "Lower.h"

using namespace llvm;

namespace hkv {

namespace {

struct Analyses {
  Analyses(Function &F, FunctionAnalysisManager &FAM)
      : Loops(FAM.getResult<LoopAnalysis>(F)), Evolution(FAM.getResult<ScalarEvolutionAnalysis>(F)),
        Dominators(FAM.getResult<DominatorTreeAnalysis>(F)), Assumptions(FAM.getResult<AssumptionAnalysis>(F)),
        Target(FAM.getResult<TargetIRAnalysis>(F)), Remarks(FAM.getResult<OptimizationRemarkEmitterAnalysis>(F)) {}
  LoopInfo &Loops;
  ScalarEvolution &Evolution;
  DominatorTree &Dominators;
  AssumptionCache &Assumptions;
  TargetTransformInfo &Target;
  OptimizationRemarkEmitter &Remarks;
};

unsigned roundsOf(Loop &L, ScalarEvolution &Evolution) {
  unsigned Exact = Evolution.getSmallConstantTripCount(&L);
  return Exact ? Exact : Evolution.getSmallConstantMaxTripCount(&L);
}

bool unroll(Loop &L, Analyses &A, unsigned Rounds) {
  UnrollLoopOptions Options{};
  Options.Count = Rounds;
  Options.Force = true;
  Options.Runtime = false;
  Options.AllowExpensiveTripCount = false;
  Options.UnrollRemainder = false;
  Options.ForgetAllSCEV = true;
  return UnrollLoop(&L, Options, &A.Loops, &A.Evolution, &A.Dominators, &A.Assumptions, &A.Target, &A.Remarks, /*PreserveLCSSA=*/true) ==
         LoopUnrollResult::FullyUnrolled;
}

// The innermost loop that can be unrolled. One at a time, since each changes what is known of the others.
bool unrollOne(Function &F, FunctionAnalysisManager &FAM, unsigned Limit, Report &R) {
  FAM.invalidate(F, LoopSimplifyPass().run(F, FAM));
  FAM.invalidate(F, LCSSAPass().run(F, FAM));
  Analyses A(F, FAM);
  SmallVector<Loop *, 8> Loops = A.Loops.getLoopsInPreorder();
  for (Loop *L : reverse(Loops)) {
    unsigned Rounds = roundsOf(*L, A.Evolution);
    if (!L->isInnermost() || Rounds == 0 || Rounds > Limit)
      continue;
    std::string Place = R.place(*L->getHeader()->getTerminator());
    if (!unroll(*L, A, Rounds))
      continue;
    R.replacedAt(Place, "a loop", Twine(Rounds) + " copies of its body");
    return true;
  }
  return false;
}

void simplify(Function &F, FunctionAnalysisManager &FAM) {
  FAM.invalidate(F, PreservedAnalyses::none());
  FAM.invalidate(F, sroaPass().run(F, FAM));
  FAM.invalidate(F, InstSimplifyPass().run(F, FAM));
  FAM.invalidate(F, SimplifyCFGPass().run(F, FAM));
}

} // namespace

bool unrollLoops(Function &F, FunctionAnalysisManager &FAM, unsigned Limit, Report &R) {
  if (Limit == 0 || FAM.getResult<LoopAnalysis>(F).empty())
    return false;
  simplify(F, FAM); // what counts the rounds has to be a register
  while (unrollOne(F, FAM, Limit, R))
    simplify(F, FAM);
  FAM.invalidate(F, PreservedAnalyses::none());
  return true;
}

} // namespace hkv
