// host.cjs as an ES module.
import host from './host.cjs'

export const { Host } = host
