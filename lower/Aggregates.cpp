// Comes in: a function. Goes out: the same with structs and arrays as values taken apart: each member a value of its own. What is left is
// the pair of a call with overflow, and what a call takes or gives.
#include "Lower.h"

using namespace llvm;

namespace hkv {

namespace {

using Path = std::vector<unsigned>; // indices from an aggregate to a part of it

class Splitter {
public:
  Splitter(Function &F, Report &R) : F(F), DL(F.getParent()->getDataLayout()), R(R) {}

  bool run() {
    bool Changed = false;
    for (Instruction &I : make_early_inc_range(instructions(F)))
      if (auto *Store = dyn_cast<StoreInst>(&I))
        if (isAggregate(Store->getValueOperand()->getType()) && Store->isSimple()) {
          splitStore(*Store);
          Changed = true;
        }
    SmallVector<WeakVH, 16> Extracts;
    for (Instruction &I : instructions(F))
      if (isa<ExtractValueInst>(I) && !isa<StructType>(I.getType()) && !isa<ArrayType>(I.getType()))
        Extracts.push_back(&I);
    for (WeakVH &Handle : Extracts)
      if (auto *Extract = cast_or_null<ExtractValueInst>(Handle))
        Changed |= replaceExtract(*Extract);
    for (Instruction *I : Told)
      R.replaced(*I, "a struct as a value (" + Twine(I->getOpcodeName()) + ")", "its members");
    dropDead();
    return Changed;
  }

private:
  static bool isAggregate(const Type *T) { return T->isAggregateType(); }

  static unsigned count(const Type *T) {
    return isa<StructType>(T) ? T->getStructNumElements() : unsigned(T->getArrayNumElements());
  }

  static Type *element(Type *T, unsigned K) { return ExtractValueInst::getIndexedType(T, {K}); }

  // The paths to all members that are no aggregates.
  static void leaves(Type *T, Path &Here, SmallVectorImpl<Path> &All) {
    if (!isAggregate(T)) {
      All.push_back(Here);
      return;
    }
    for (unsigned K = 0; K < count(T); ++K) {
      Here.push_back(K);
      leaves(element(T, K), Here, All);
      Here.pop_back();
    }
  }

  uint64_t offsetOf(Type *T, ArrayRef<unsigned> At) {
    uint64_t Offset = 0;
    for (unsigned K : At) {
      Offset += isa<StructType>(T) ? uint64_t(DL.getStructLayout(cast<StructType>(T))->getElementOffset(K)) : K * uint64_t(DL.getTypeAllocSize(element(T, K)));
      T = element(T, K);
    }
    return Offset;
  }

  void splitStore(StoreInst &Store) {
    Value *Whole = Store.getValueOperand();
    SmallVector<Path, 8> All;
    Path Here;
    leaves(Whole->getType(), Here, All);
    R.replaced(Store, "a store of a struct", "stores of its members");
    IRBuilder<> B(&Store);
    for (const Path &At : All) {
      uint64_t Offset = offsetOf(Whole->getType(), At);
      Value *Part = B.CreateExtractValue(Whole, At);
      B.CreateAlignedStore(Part, byteAt(B, Store.getPointerOperand(), Offset), commonAlignment(Store.getAlign(), Offset));
    }
    Store.eraseFromParent();
  }

  // The member of an aggregate, as a value of its own; none where it stays a member of what a call gives.
  Value *member(Value *Whole, Path At) {
    if (At.empty())
      return Whole;
    if (auto *C = dyn_cast<Constant>(Whole)) {
      Constant *Part = C;
      for (unsigned K : At)
        Part = Part ? Part->getAggregateElement(K) : nullptr;
      return Part;
    }
    auto Known = Members.find({Whole, At});
    if (Known != Members.end())
      return Known->second;
    Value *Found = compute(Whole, At);
    if (Found)
      Members[{Whole, At}] = Found;
    return Found;
  }

  Value *compute(Value *Whole, const Path &At) {
    if (auto *Insert = dyn_cast<InsertValueInst>(Whole)) {
      Told.insert(Insert);
      ArrayRef<unsigned> Into = Insert->getIndices();
      size_t Common = 0;
      while (Common < Into.size() && Common < At.size() && Into[Common] == At[Common])
        ++Common;
      if (Common == Into.size())
        return member(Insert->getInsertedValueOperand(), Path(At.begin() + Common, At.end()));
      return member(Insert->getAggregateOperand(), At);
    }
    if (auto *Extract = dyn_cast<ExtractValueInst>(Whole)) {
      Path Longer = Extract->getIndices().vec();
      Longer.insert(Longer.end(), At.begin(), At.end());
      return member(Extract->getAggregateOperand(), Longer);
    }
    Type *T = ExtractValueInst::getIndexedType(Whole->getType(), At);
    if (auto *Phi = dyn_cast<PHINode>(Whole))
      return ofPhi(*Phi, At, T);
    auto *I = dyn_cast<Instruction>(Whole);
    if (!I || I->isTerminator())
      return nullptr;
    IRBuilder<> B(I);
    if (auto *Select = dyn_cast<SelectInst>(Whole)) {
      Value *A = member(Select->getTrueValue(), At), *C = member(Select->getFalseValue(), At);
      Told.insert(I);
      return A && C ? B.CreateSelect(Select->getCondition(), A, C) : nullptr;
    }
    if (auto *Freeze = dyn_cast<FreezeInst>(Whole)) {
      Value *A = member(Freeze->getOperand(0), At);
      return A ? B.CreateFreeze(A) : nullptr;
    }
    if (auto *Load = dyn_cast<LoadInst>(Whole); Load && Load->isSimple()) {
      uint64_t Offset = offsetOf(Load->getType(), At);
      Told.insert(I);
      return B.CreateAlignedLoad(T, byteAt(B, Load->getPointerOperand(), Offset), commonAlignment(Load->getAlign(), Offset));
    }
    if (isa<CallBase>(Whole)) { // a member of its own, right behind the call
      IRBuilder<> Behind(I->getNextNode());
      return Behind.CreateExtractValue(Whole, At);
    }
    return nullptr;
  }

  Value *ofPhi(PHINode &Phi, const Path &At, Type *T) {
    auto *New = PHINode::Create(T, Phi.getNumIncomingValues(), "", &Phi);
    Members[{&Phi, At}] = New; // before its arms: they may come back to it
    Told.insert(&Phi);
    for (unsigned K = 0; K < Phi.getNumIncomingValues(); ++K) {
      Value *Arm = member(Phi.getIncomingValue(K), At);
      if (!Arm) { // an arm that is what a call at the block's end gives
        IRBuilder<> B(Phi.getIncomingBlock(K)->getTerminator());
        Arm = B.CreateExtractValue(Phi.getIncomingValue(K), At);
      }
      New->addIncoming(Arm, Phi.getIncomingBlock(K));
    }
    return New;
  }

  bool replaceExtract(ExtractValueInst &Extract) {
    Value *Whole = Extract.getAggregateOperand();
    if (isa<CallBase>(Whole))
      return false;
    Value *Part = member(Whole, Extract.getIndices().vec());
    if (!Part || Part == &Extract)
      return false;
    for (auto &Known : Members)
      if (Known.second == &Extract)
        Known.second = Part;
    Extract.replaceAllUsesWith(Part);
    Dead.push_back(&Extract);
    return true;
  }

  // What is not used any more of the aggregates.
  void dropDead() {
    for (WeakVH &Handle : Dead)
      if (Handle)
        cast<Instruction>(Handle)->eraseFromParent();
    for (bool Again = true; Again;) {
      Again = false;
      for (Instruction &I : make_early_inc_range(instructions(F)))
        if (isAggregate(I.getType()) && I.use_empty() && !isa<CallBase>(I) && !I.isTerminator()) {
          I.eraseFromParent();
          Again = true;
        }
      Again |= dropPhis();
    }
  }

  // Phis of aggregates that only use one another.
  bool dropPhis() {
    for (BasicBlock &Block : F)
      for (PHINode &Phi : Block.phis())
        if (isAggregate(Phi.getType()) && RecursivelyDeleteDeadPHINode(&Phi))
          return true;
    return false;
  }

  Function &F;
  const DataLayout &DL;
  Report &R;
  std::map<std::pair<Value *, Path>, Value *> Members;
  SetVector<Instruction *> Told;
  SmallVector<WeakVH, 16> Dead;
};

} // namespace

bool splitAggregates(Function &F, Report &R) { return Splitter(F, R).run(); }

} // namespace hkv
