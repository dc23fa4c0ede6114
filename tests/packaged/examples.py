"""The examples in the documentation of the package hold. Those of dtypes are left out without numpy."""
import doctest
import importlib
import importlib.util
import pkgutil

import wgsl

HAS_NUMPY = importlib.util.find_spec("numpy") is not None


def main():
    found = {module.name for module in pkgutil.iter_modules(wgsl.__path__)} - {"__main__", "libwgsl"}
    modules = [importlib.import_module(name) for name in ["wgsl", *(f"wgsl.{name}" for name in sorted(found))]]
    tests = [test for module in modules for test in doctest.DocTestFinder().find(module) if test.examples]
    public = {name for name, value in vars(wgsl).items() if callable(value) and not name.startswith("_")}
    listed = {name for name in wgsl.__all__ if callable(getattr(wgsl, name))}
    lacking = (public ^ listed) | public - {test.name.split(".")[-1] for test in tests}
    runner = doctest.DocTestRunner()
    for test in tests:
        if HAS_NUMPY or "dtype" not in test.name:
            runner.run(test)
    if runner.failures or lacking:
        raise SystemExit(f"package: {runner.failures} of {runner.tries} examples in Python fail, and {lacking} have none or aren't listed")
    print(f"package: {runner.tries} examples in Python hold" + ("" if HAS_NUMPY else ", without numpy"))


main()
