// with_host.cjs as an ES module.
import fixture from './with_host.cjs'

export const { withHost } = fixture
