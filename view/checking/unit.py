"""A loader of units of co-simulation, by the words of the Functional Mock-up Interface 2.0."""
import ctypes
import os
import zipfile
from ctypes import CFUNCTYPE, Structure, byref, c_char_p, c_double, c_int, c_size_t, c_uint, c_void_p
from xml.etree import ElementTree

LOGGER = CFUNCTYPE(None, c_void_p, c_char_p, c_int, c_char_p, c_char_p, c_char_p)
OK, ERROR = 0, 3
CO_SIMULATION = 1
TYPES = {'Real': c_double, 'Integer': c_int, 'Boolean': c_int}
ATTRIBUTES = {
    'fmiModelDescription': {'fmiVersion', 'modelName', 'guid', 'description', 'generationTool', 'variableNamingConvention',
                            'numberOfEventIndicators'},
    'CoSimulation': {'modelIdentifier', 'canHandleVariableCommunicationStepSize', 'canNotUseMemoryManagementFunctions',
                     'canGetAndSetFMUstate', 'canSerializeFMUstate'},
    'ScalarVariable': {'name', 'valueReference', 'description', 'causality', 'variability', 'initial'},
    'Real': {'min', 'max', 'start'}, 'Integer': {'min', 'max', 'start'}, 'Boolean': {'start'}, 'Unknown': {'index'},
    'SourceFiles': set(), 'File': {'name'}, 'LogCategories': set(), 'Category': {'name'}, 'ModelVariables': set(),
    'ModelStructure': set(), 'Outputs': set(), 'InitialUnknowns': set()}
FUNCTIONS = ('GetTypesPlatform GetVersion SetDebugLogging Instantiate FreeInstance SetupExperiment EnterInitializationMode '
             'ExitInitializationMode Terminate Reset GetReal GetInteger GetBoolean GetString SetReal SetInteger SetBoolean '
             'SetString GetFMUstate SetFMUstate FreeFMUstate SerializedFMUstateSize SerializeFMUstate DeSerializeFMUstate '
             'GetDirectionalDerivative SetRealInputDerivatives GetRealOutputDerivatives DoStep CancelStep GetStatus GetRealStatus '
             'GetIntegerStatus GetBooleanStatus GetStringStatus').split(' ')


class Callbacks(Structure):
    """What the standard calls fmi2CallbackFunctions."""
    _fields_ = [('logger', LOGGER), ('allocate', c_void_p), ('free', c_void_p), ('finished', c_void_p), ('environment', c_void_p)]


class Unit:
    """An instance of the unit in a file, which is unpacked into a folder."""

    def __init__(self, file, folder):
        with zipfile.ZipFile(file) as archive:
            archive.extractall(folder)
        self.folder = folder
        self.tree = ElementTree.parse(os.path.join(folder, 'modelDescription.xml')).getroot()
        variables = self.tree.find('ModelVariables')
        self.variables = {each.get('name'): (int(each.get('valueReference')), each[0].tag, each) for each in variables}
        identifier = self.tree.find('CoSimulation').get('modelIdentifier')
        self.library = ctypes.CDLL(os.path.join(folder, 'binaries', 'linux64', identifier + '.so'))
        for name in FUNCTIONS:
            getattr(self.library, 'fmi2' + name).restype = c_int
        self.library.fmi2Instantiate.restype = c_void_p
        self.library.fmi2GetVersion.restype = self.library.fmi2GetTypesPlatform.restype = c_char_p
        self.logged = []
        self.callbacks = Callbacks(LOGGER(lambda *given: self.logged.append(given[4])), None, None, None, None)
        self.component = c_void_p(self.instantiate(self.tree.get('guid')))
        self.time = 0.0

    def instantiate(self, guid):
        return self.library.fmi2Instantiate(b'unit', CO_SIMULATION, guid.encode(), b'', byref(self.callbacks), 0, 0)

    def call(self, name, *given):
        return getattr(self.library, 'fmi2' + name)(self.component, *given)

    def get(self, name):
        reference, kind, _ = self.variables[name]
        value = TYPES[kind]()
        status = self.call('Get' + kind, byref(c_uint(reference)), c_size_t(1), byref(value))
        if status != OK:
            raise ValueError('fmi2Get%s of %s gives %d' % (kind, name, status))
        return bool(value.value) if kind == 'Boolean' else value.value

    def set(self, name, value):
        reference, kind, _ = self.variables[name]
        return self.call('Set' + kind, byref(c_uint(reference)), c_size_t(1), byref(TYPES[kind](value)))

    def begin(self):
        """From an instance to one that runs; gives the status of the start."""
        self.call('SetupExperiment', c_int(0), c_double(0), c_double(0), c_int(0), c_double(0))
        self.call('EnterInitializationMode')
        return self.call('ExitInitializationMode')

    def step(self):
        status = self.call('DoStep', c_double(self.time), c_double(1), c_int(1))
        self.time += 1.0
        return status

    def free(self):
        self.library.fmi2FreeInstance.restype = None
        self.library.fmi2FreeInstance(self.component)


def description_faults(tree):
    """What is wrong with a description by the words of the standard: elements and attributes, references, starts, the structure."""
    lines = ['%s has %s' % (each.tag, name) for each in tree.iter() for name in each.attrib
             if name not in ATTRIBUTES.get(each.tag, ())]
    lines += ['there is an element %s' % each.tag for each in tree.iter() if each.tag not in ATTRIBUTES]
    order = [each.tag for each in tree]
    if order != ['CoSimulation', 'LogCategories', 'ModelVariables', 'ModelStructure']:
        lines.append('the elements are %s' % order)
    variables = list(tree.find('ModelVariables'))
    if len({each.get('name') for each in variables}) < len(variables):
        lines.append('a name stands twice')
    for each in variables:
        has_start, is_input = each[0].get('start') is not None, each.get('causality') == 'input'
        if has_start != is_input or (each.get('initial') is None) != is_input or each.get('variability') != 'discrete':
            lines.append('%s has a start or an initial that it mustn\'t have' % each.get('name'))
    wanted = [str(place) for place, each in enumerate(variables, 1) if each.get('causality') == 'output']
    for word in ('Outputs', 'InitialUnknowns'):
        if [each.get('index') for each in tree.find('ModelStructure').find(word)] != wanted:
            lines.append('%s are others' % word)
    return lines
