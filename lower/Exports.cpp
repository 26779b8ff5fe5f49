// Comes in: a module. Goes out: the same without `module asm`, where that only exports symbols, and without the list of symbols that
// are to be kept. A file that is linked from the new text has no such exports.
#include "Lower.h"

using namespace llvm;

namespace hkv {

namespace {

const char *const SymbolDirectives[] = {".globl", ".global", ".weak", ".hidden", ".protected", ".internal", ".local",
                                        ".symver", ".type", ".size", ".export", ".no_dead_strip", ".ident", ".file"};
const char *const DataDirectives[] = {".asciz", ".ascii", ".string", ".byte", ".short", ".hword", ".2byte", ".long",
                                      ".4byte", ".word", ".quad", ".8byte", ".balign", ".align", ".p2align", ".zero"};
const char *const TableSections[] = {"___ksymtab", "__ksymtab", "___kcrctab", "__kcrctab", ".export_symbol", ".modinfo",
                                     ".discard", ".no_trim_symbol", ".note.GNU-stack", ".gnu.linkonce.this_module"};
const char *const TableLabels[] = {"__ksymtab", "__kstrtab", "__kcrctab", "__crc_", "__export_symbol_", "__modinfo"};

template <typename Words> bool isOneOf(StringRef Text, const Words &List) {
  return any_of(List, [&](const char *Word) { return Text == Word; });
}

template <typename Words> bool beginsWithOneOf(StringRef Text, const Words &List) {
  return any_of(List, [&](const char *Word) { return Text.take_front(strlen(Word)) == Word; });
}

// Reads statement by statement: only tables of exported symbols have data, and nothing has instructions.
class ExportReader {
public:
  bool read(StringRef Text) {
    SmallVector<StringRef, 32> Statements;
    Text.split(Statements, '\n');
    for (StringRef Line : Statements)
      for (StringRef Rest = Line; !Rest.empty();) {
        auto [Statement, Behind] = splitStatement(Rest);
        Rest = Behind;
        if (!takes(Statement.trim()))
          return false;
      }
    return true;
  }

private:
  // Up to a `;` or a comment outside of strings.
  static std::pair<StringRef, StringRef> splitStatement(StringRef Text) {
    bool Quoted = false;
    for (size_t K = 0; K < Text.size(); ++K) {
      if (Text[K] == '\\' && Quoted)
        ++K;
      else if (Text[K] == '"')
        Quoted = !Quoted;
      else if (!Quoted && Text[K] == ';')
        return {Text.take_front(K), Text.drop_front(K + 1)};
      else if (!Quoted && Text[K] == '#')
        return {Text.take_front(K), StringRef()};
    }
    return {Text, StringRef()};
  }

  bool takes(StringRef Statement) {
    if (Statement.empty())
      return true;
    StringRef Word = Statement.take_until([](char C) { return C == ' ' || C == '\t' || C == ':'; });
    StringRef Behind = Statement.drop_front(Word.size()).ltrim();
    if (Behind.take_front(1) == ":")
      return (beginsWithOneOf(Word, TableLabels) || Word.take_front(2) == ".L") && InTable && takes(Behind.drop_front(1).trim());
    if (Word == ".section" || Word == ".pushsection") {
      Outer.push_back(InTable);
      InTable = beginsWithOneOf(Behind.ltrim('"'), TableSections);
      return InTable;
    }
    if (Word == ".previous" || Word == ".popsection" || Word == ".text") {
      InTable = Word == ".text" || Outer.empty() ? false : Outer.pop_back_val();
      return true;
    }
    if (isOneOf(Word, DataDirectives))
      return InTable;
    return isOneOf(Word, SymbolDirectives);
  }

  bool InTable = false;
  SmallVector<bool, 4> Outer;
};

} // namespace

bool dropExports(Module &M, Report &R) {
  bool Changed = false;
  if (!M.getModuleInlineAsm().empty() && ExportReader().read(M.getModuleInlineAsm())) {
    R.replaced("module asm, which exports symbols", "gone: a program that is linked from the new text does not export them");
    M.setModuleInlineAsm("");
    Changed = true;
  }
  for (const char *Name : {"llvm.used", "llvm.compiler.used"})
    if (GlobalVariable *Used = M.getGlobalVariable(Name)) {
      R.replaced(Name, "gone: what the linker is to keep without a use has to be said to it");
      Used->eraseFromParent();
      Changed = true;
    }
  for (GlobalObject &Object : M.global_objects())
    if (Object.hasComdat()) {
      R.replaced("comdat of " + Object.getName(), "gone");
      Object.setComdat(nullptr);
      Changed = true;
    }
  M.getComdatSymbolTable().clear();
  return Changed;
}

} // namespace hkv
