// Comes in: a lowered module. Goes out: nothing but lines of the report: what stands outside of the profile still, why, and how others
// write it. What is read in the end decides `hkv` alone.
#include "Lower.h"

using namespace llvm;

namespace hkv {

namespace {

bool holdsPointer(const Type *T) {
  if (auto *Array = dyn_cast<ArrayType>(T))
    return holdsPointer(Array->getElementType());
  if (auto *Struct = dyn_cast<StructType>(T))
    return any_of(Struct->elements(), holdsPointer);
  return T->isPointerTy();
}

class Teller {
public:
  explicit Teller(Report &R) : R(R) {}

  void tell(Module &M) {
    if (!M.getModuleInlineAsm().empty())
      R.left("module asm", "it does more than to export symbols: put it into a file of its own");
    for (GlobalVariable &G : M.globals())
      tellGlobal(G);
    for (GlobalAlias &A : M.aliases())
      R.left("the alias " + A.getName(), "define the function or variable under one name");
    for (GlobalIFunc &A : M.ifuncs())
      R.left("the ifunc " + A.getName(), "call one function");
    for (Function &F : M)
      if (!F.isDeclaration())
        tellFunction(F);
  }

private:
  void tellGlobal(const GlobalVariable &G) {
    if (G.isThreadLocal())
      R.left("the thread-local variable " + G.getName(), "one variable, or an array with one element for each processor");
    else if (G.getName().take_front(5) == "llvm.")
      R.left("the list " + G.getName(), "what runs before the handlers stands in another file");
    else if (!G.hasInitializer())
      R.left("the variable " + G.getName() + " of another file", "define it in this file");
    else if (G.getParent()->getDataLayout().getTypeAllocSize(G.getValueType()) > 4194304)
      R.left("the variable " + G.getName() + " of more than 4 MiB", "a smaller table, or one that handlers do not touch in another file");
    else if (holdsPointer(G.getValueType()))
      R.left("a pointer in the variable " + G.getName(), "keep the number of the slot that it points to, and a switch in place of a table of functions");
  }

  void tellFunction(Function &F) {
    tellHead(F);
    for (Instruction &I : instructions(F))
      if (!isa<DbgInfoIntrinsic>(I))
        tellInstruction(I);
    SmallVector<std::pair<const BasicBlock *, const BasicBlock *>, 8> Back;
    FindFunctionBackedges(F, Back);
    SmallPtrSet<const BasicBlock *, 8> Heads;
    for (auto &[From, To] : Back)
      if (Heads.insert(To).second)
        R.left(*From->getTerminator(), "a loop", "let the caller choose and the handler test, or give --unroll N where it has at most N rounds");
  }

  void tellHead(const Function &F) {
    bool Structs = F.getReturnType()->isAggregateType();
    for (const Argument &A : F.args())
      Structs |= A.getType()->isAggregateType() || A.hasAttribute(Attribute::ByVal) || A.hasAttribute(Attribute::StructRet);
    if (Structs)
      R.left(F, "a struct as parameter or result", "pass its members; a function that is static is inlined");
    if (isRecursive(F))
      R.left(F, "recursion", "a handler has no calls that come back to it");
    if (F.isVarArg())
      R.left(F, "a variable number of parameters", "fix their number");
  }

  const char *oddType(const Instruction &I) {
    auto Seen = [&](auto Is) { return Is(I.getType()) || any_of(I.operands(), [&](const Use &U) { return Is(U->getType()); }); };
    if (Seen([](const Type *T) { return T->isFPOrFPVectorTy(); }))
      return "a floating point number: count in integers";
    if (Seen([](const Type *T) { return isWideInteger(T->getScalarType()); }))
      return "an integer of more than 64 bits: compute with two halves of 64 bits";
    if (Seen([](const Type *T) { return T->isVectorTy(); }))
      return "a vector: compile with -fno-vectorize -fno-slp-vectorize";
    return nullptr;
  }

  void tellInstruction(Instruction &I) {
    if (const char *Why = oddType(I))
      return R.left(I, I.getOpcodeName(), Why);
    bool Volatile = I.isVolatile();
    if (auto *Copy = dyn_cast<MemIntrinsic>(&I))
      Volatile |= Copy->isVolatile();
    if (Volatile || I.isAtomic())
      return R.left(I, (Volatile ? "volatile " : "atomic ") + Twine(I.getOpcodeName()),
                    "a device or another processor may see it: --single-processor makes it plain, where none does");
    if (auto *Call = dyn_cast<CallBase>(&I))
      return tellCall(*Call);
    if (auto *A = dyn_cast<AllocaInst>(&I))
      return tellLocal(*A);
    switch (I.getOpcode()) {
    case Instruction::PtrToInt:
    case Instruction::IntToPtr:
    case Instruction::AddrSpaceCast:
      return R.left(I, I.getOpcodeName(), "an address as a number: compute with the number of a slot");
    case Instruction::InsertValue:
      return R.left(I, I.getOpcodeName(), "a struct as a value that goes to a call or a result: pass its members");
    case Instruction::IndirectBr:
    case Instruction::CallBr:
    case Instruction::Invoke:
    case Instruction::VAArg:
      return R.left(I, I.getOpcodeName(), "write it by calls, `if` and `switch`");
    default:
      break;
    }
    if (getLoadStoreType(I))
      tellAccess(I);
    for (const Use &U : I.operands())
      if (auto *C = dyn_cast<ConstantExpr>(U.get()))
        if (C->getOpcode() != Instruction::GetElementPtr)
          R.left(I, Twine(C->getOpcodeName()) + " as a constant", "an address as a number: compute with the number of a slot");
  }

  static Type *getLoadStoreType(Instruction &I) {
    if (auto *Load = dyn_cast<LoadInst>(&I))
      return Load->getType();
    auto *Store = dyn_cast<StoreInst>(&I);
    return Store ? Store->getValueOperand()->getType() : nullptr;
  }

  void tellAccess(Instruction &I) {
    if (getLoadStoreType(I)->isPointerTy() && !isa<AllocaInst>(getLoadStorePointerOperand(&I)))
      R.left(I, Twine(I.getOpcodeName()) + " of a pointer", "keep the number of the slot that it points to");
  }

  void tellLocal(const AllocaInst &A) {
    for (const User *U : A.users()) {
      bool Plain = isa<DbgInfoIntrinsic>(U) || isa<LoadInst>(U) || (isa<StoreInst>(U) && cast<StoreInst>(U)->getPointerOperand() == &A);
      if (!Plain || !A.getAllocatedType()->isSingleValueType())
        return R.left(A, "a local in memory", "it is not taken apart: index it by numbers that are known, and hand it to static functions alone");
    }
  }

  void tellCopy(const MemIntrinsic &Copy) {
    bool Fixed = isa<ConstantInt>(Copy.getLength());
    R.left(Copy, nameOf(Copy), Fixed ? "more than 4,096 bytes: a copy for each part of it, or a smaller table" : "its length varies: copy a number of bytes that is fixed");
  }

  void tellCall(const CallBase &Call) {
    if (Call.isInlineAsm())
      return R.left(Call, "asm", "instructions of the processor stand behind a hook");
    const Function *Callee = Call.getCalledFunction();
    if (!Callee)
      return R.left(Call, nameOf(Call), "a switch over the number of the function");
    if (auto *Copy = dyn_cast<MemIntrinsic>(&Call))
      return tellCopy(*Copy);
    if (Callee->isIntrinsic())
      return tellIntrinsic(Call);
    if (Callee->isVarArg())
      return R.left(Call, "a call of " + nameOf(Call) + " with a variable number of arguments", "a void hook with fixed parameters");
    if (Callee->isDeclaration() && !Callee->getReturnType()->isVoidTy())
      R.left(Call, "a call of " + nameOf(Call) + " of another file", "its code into this file, or a void function as a hook");
  }

  void tellIntrinsic(const CallBase &Call) {
    switch (Call.getIntrinsicID()) {
    case Intrinsic::uadd_with_overflow:
    case Intrinsic::sadd_with_overflow:
    case Intrinsic::usub_with_overflow:
    case Intrinsic::ssub_with_overflow:
    case Intrinsic::umul_with_overflow:
    case Intrinsic::smul_with_overflow:
    case Intrinsic::umin:
    case Intrinsic::umax:
    case Intrinsic::smin:
    case Intrinsic::smax:
    case Intrinsic::abs:
    case Intrinsic::expect:
    case Intrinsic::assume:
      return;
    case Intrinsic::trap:
    case Intrinsic::debugtrap:
    case Intrinsic::ubsantrap:
      return R.left(Call, nameOf(Call), "return an error");
    default:
      return R.left(Call, nameOf(Call), "nothing in the profile does what it does");
    }
  }

  Report &R;
};

} // namespace

void tellLeft(Module &M, Report &R) { Teller(R).tell(M); }

} // namespace hkv
