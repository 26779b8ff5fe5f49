// Comes in: a module. Goes out: the same without promises that the profile has no word for: flags of newer instructions, attributes of
// parameters and results. A promise that is dropped leaves less undefined. Declarations that nothing uses go, too.
#include "Lower.h"

using namespace llvm;

namespace hkv {

namespace {

// Attributes that say how a value is passed, or that the reader of texts drops as they are.
bool isKept(const Attribute &A) {
  if (A.isStringAttribute())
    return false;
  switch (A.getKindAsEnum()) {
  case Attribute::NoUndef:
  case Attribute::ZExt:
  case Attribute::SExt:
  case Attribute::InReg:
  case Attribute::NoAlias:
  case Attribute::NonNull:
  case Attribute::NoFree:
  case Attribute::NoCapture:
  case Attribute::ReadOnly:
  case Attribute::ReadNone:
  case Attribute::WriteOnly:
  case Attribute::Returned:
  case Attribute::ImmArg:
  case Attribute::Alignment:
  case Attribute::Dereferenceable:
  case Attribute::DereferenceableOrNull:
    return true;
  // how structs are passed: without them the call would be another one
  case Attribute::ByVal:
  case Attribute::StructRet:
  case Attribute::InAlloca:
  case Attribute::Preallocated:
  case Attribute::Nest:
  case Attribute::SwiftSelf:
  case Attribute::SwiftError:
    return true;
  default:
    return false;
  }
}

// In a static function the struct that a result comes back in is a pointer as any other.
AttributeSet kept(LLVMContext &Context, AttributeSet Old, bool IsLocal) {
  AttrBuilder New(Context);
  for (const Attribute &A : Old)
    if (isKept(A) && !(IsLocal && A.hasAttribute(Attribute::StructRet)))
      New.addAttribute(A);
  return AttributeSet::get(Context, New);
}

AttributeList kept(LLVMContext &Context, AttributeList Old, unsigned Parameters, bool IsLocal) {
  SmallVector<AttributeSet, 8> Sets;
  for (unsigned K = 0; K < Parameters; ++K)
    Sets.push_back(kept(Context, Old.getParamAttrs(K), IsLocal));
  return AttributeList::get(Context, Old.getFnAttrs(), kept(Context, Old.getRetAttrs(), IsLocal), Sets);
}

bool dropAt(Instruction &I) {
  bool Changed = dropNewPromises(I);
  auto *Call = dyn_cast<CallBase>(&I);
  if (!Call)
    return Changed;
  const Function *Callee = Call->getCalledFunction();
  AttributeList New = kept(I.getContext(), Call->getAttributes(), Call->arg_size(), Callee && Callee->hasLocalLinkage());
  Changed |= New != Call->getAttributes();
  Call->setAttributes(New);
  return Changed;
}

} // namespace

bool dropPromises(Module &M, Report &R) {
  bool Changed = false;
  for (Function &F : make_early_inc_range(M)) {
    if (F.isIntrinsic() && F.use_empty()) {
      F.eraseFromParent();
      continue;
    }
    if (!F.isIntrinsic())
      F.setAttributes(kept(M.getContext(), F.getAttributes(), F.arg_size(), F.hasLocalLinkage()));
    for (Instruction &I : instructions(F))
      if (dropAt(I)) {
        R.replaced(I, "promises at " + Twine(I.getOpcodeName()) + " that the profile has no word for", "none");
        Changed = true;
      }
  }
  return Changed;
}

} // namespace hkv
